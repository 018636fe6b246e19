#!/usr/bin/env python3
"""Respells names of specs/ and proofs/ as today's Rattle spells them: types in camel case, other words in snake case.

usage: tools/respell.py    at the top of the repository, once, after the kit's port.py

It goes by whole names, in crates/*/{src,specs,proofs} and must-fail/, and leaves comments as they are.
Functions of src/, exported names, strings, inputs and outputs have none of these names.
"""

import os
import re

# old new, ...
NAMES = """
    All-different AllDifferent, All-different-means AllDifferentMeans, Among-means AmongMeans, Decided-exact DecidedExact, Disjoint-means DisjointMeans,
    Examples-stand ExamplesStand, Goes_on GoesOn, Inside-stands InsideStands, Keeps-all KeepsAll, Keeps-call KeepsCall, Keeps-calls KeepsCalls,
    Longest-holds LongestHolds, Members-sure MembersSure, Mixes-stand MixesStand, N-value NValue, N-value-means NValueMeans, Reads-alike ReadsAlike,
    Roots-splits RootsSplits, Settling-stands SettlingStands, Sheet-trusted SheetTrusted, Slots-decided SlotsDecided, So-far SoFar,
    Tight-stands TightStands, Uses-means UsesMeans, a-range a_range, acceptedOf accepted_of, actOf act_of_lem, agree-back agree_back,
    agree-none agree_none, agree-there agree_there, all-different-calls all_different_calls, all-different-causes all_different_causes,
    among-calls among_calls, among-causes among_causes, answersAll answers_all, apart-entries apart_entries, apart-fault apart_fault,
    apart-holds apart_holds, apart-rule apart_rule, apart-run apart_run, asCase as_case, board-is board_is, board-same board_same, boardOf board_of,
    both-agree both_agree, bound-entries bound_entries, bound-from bound_from, boxOf box_of, callsAll calls_all, cands-many cands_many, cands-on cands_on,
    claimed-is claimed_is, count-causes count_causes, count-fault count_fault, count-holds count_holds, count-in count_in, count-out count_out,
    count-rule count_rule, count-run count_run, deadText dead_text, decodeOf decode_of, disjoint-calls disjoint_calls, each-laws each_laws,
    entered-box entered_box, entriesOf entries_of, entry-causes entry_causes, excluded-causes excluded_causes, excluded-clear excluded_clear,
    excluded-none excluded_none, excludes-from excludes_from, faultOf fault_of, firstFault first_fault, firstIn first_in, flawAt flaw_at, flawOf flaw_of,
    free-places free_places, from-choices from_choices, g-on g_on, greatest-in greatest_in, h-on h_on, highs-many highs_many, highs-on highs_on,
    implication-fault implication_fault, implication-run implication_run, implied-by implied_by, implied-by-entries implied_by_entries,
    implies-entries implies_entries, insideOf inside_of, is-calls is_calls, keeps-supports keeps_supports, kept-to-the-end kept_to_the_end,
    kind-bits kind_bits, kinds-fit kinds_fit, laidOver laid_over, least-in least_in, lengthsOf lengths_of, linked-causes linked_causes,
    linked-clear linked_clear, linked-none linked_none, links-from links_from, loadFault load_fault, longest-listing longest_listing, low-s low_s,
    low-t low_t, lower-is lower_is, lows-many lows_many, mask-width mask_width, maskAt mask_at, masks-on masks_on, meantIf meant_if,
    most-places most_places, most-sensors most_sensors, most-sets most_sets, most-slots most_slots, n-value-calls n_value_calls,
    n-value-causes n_value_causes, near-from near_from, never-lost never_lost, new-causes new_causes, no-loss no_loss, no-loss-settled no_loss_settled,
    no-range no_range_lem, none-agree none_agree, none-listed none_listed, of-sensors of_sensors, one-listed one_listed, over-s over_s, over-t over_t,
    pair-causes pair_causes, part-kept part_kept, parts-run parts_run, placeNow place_now, places-are places_are, postAnswer post_answer,
    postedOf posted_of, postedPlaces posted_places, range-calls range_calls, range-causes range_causes, range-fault range_fault, range-holds range_holds,
    range-rule range_rule, range-run range_run, rankIn rank_in, readFrom read_from, readsOn reads_on, recAt rec_at, recordsOf records_of,
    refusedLine refused_line, rootIn root_in_lem, rooted-links rooted_links, roots-causes roots_causes, roots-fault roots_fault, roots-holds roots_holds,
    roots-lawful roots_lawful, roots-restful roots_restful, roots-rule roots_rule, roots-run roots_run, roots-splits roots_splits, rootsOf roots_of_lem,
    row-entries row_entries, row-fault row_fault, row-holds row_holds, row-run row_run, rules-are rules_are, s-apart s_apart, s-high s_high, s-low s_low,
    s-mask s_mask, s-there s_there, sensorLine sensor_line, sensorLines sensor_lines, sensorOf sensor_of, sensors-on sensors_on, set-causes set_causes,
    setLine set_line, setLines set_lines, setOf set_of, sets-many sets_many, sets-on sets_on, settledBox settled_box, settledBy settled_by,
    sheet-fault sheet_fault, sheet-holds sheet_holds, sheet-kept sheet_kept, sheet-lawful sheet_lawful, sheet-restful sheet_restful, sheet-run sheet_run,
    sheetText sheet_text, slotIn slot_in_lem, slots-decided slots_decided, slots-in slots_in, slots-many slots_many, slots-of slots_of,
    slots-of-all slots_of_all, slots-on slots_on, subset-from subset_from, t-apart t_apart, t-high t_high, t-is t_is, t-low t_low, t-mask t_mask,
    t-there t_there, thenWalk then_walk, top-s top_s, top-t top_t, two-groups-causes two_groups_causes, two-listed two_listed, u-mask u_mask,
    under-s under_s, under-t under_t, uses-all uses_all, uses-calls uses_calls, w-is w_is, w-mask w_mask, walkFrom walk_from, walkOn walk_on,
    walksOn walks_on, within-entries within_entries, within-fault within_fault, within-holds within_holds, within-rule within_rule, within-run within_run,
    within-s within_s, within-t within_t, absentOf absent_of, misfitOf misfit_of, listingText listing_text, roomOf room_of, repeatedOf repeated_of,
    isHead is_head_lem, beyondOf beyond_of, leastOf least_of, stretchOf stretch_of
"""

TABLE = dict(pair.split() for pair in NAMES.replace("\n", " ").split(",") if pair.strip())
WORD = re.compile(r"[^\s(){}\[\].,;`]+")


def respell(line):
    if line.lstrip().startswith(("--", "//")):
        return line
    return WORD.sub(lambda m: TABLE.get(m[0], m[0]), line)


def main():
    for folder, dirs, files in os.walk("crates"):
        dirs[:] = sorted(d for d in dirs if d != "out")
        for name in sorted(files):
            if name.endswith((".rt", ".antt", ".edit")):
                path = os.path.join(folder, name)
                with open(path, encoding="utf-8", newline="") as f:
                    old = f.read()
                new = "".join(map(respell, old.splitlines(keepends=True)))
                if new != old:
                    with open(path, "w", encoding="utf-8", newline="") as f:
                        f.write(new)


main()
