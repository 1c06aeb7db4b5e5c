/* Prints the statistics of a comparison and says which refusals were never met. Rests on the table of calls for the refusals that a
 * call uses.
 */
#include "comparison/statistics.h"

#include <stdio.h>

static const char *const counter_texts[counters] = {
    [counter_sheets_by_construction] = "sheets correct by construction",
    [counter_instants_previewed] = "instants accepted in rounds as their preview shows",
    [counter_instants_both_ways] = "instants the same both ways",
    [counter_instants_without_schedule] = "instants accepted in rounds that have no schedule",
    [counter_most_rounds] = "most rounds",
    [counter_rounds_by_depth] = "instants accepted in rounds that have a schedule, in at most the greatest depth plus one",
    [counter_rounds_at_depth] = "of these in just so many rounds",
    [counter_depths_below_wires] = "of these with a greatest depth below the count of wires",
    [counter_greatest_depth] = "greatest depth of all",
    [counter_loops_above_wire_0] = "instants refused 20 at another wire than wire 0",
    [counter_highest_loop] = "highest wire at which 20 was refused",
    [counter_loops_above_unknown] = "instants refused 20 above the lowest unknown wire",
    [counter_loops_not_by_reads] = "instants refused 20 at another wire than reads alone would tell",
    [counter_waiting_directly] = "instants refused 20 at a wire that waits for itself directly",
    [counter_waiting_through_others] = "instants refused 20 at a wire that waits for itself through others",
    [counter_instants_along_made_list] = "instants along a made list",
    [counter_lower_wires_refused] = "lower wires of made lists brought forward and refused",
    [counter_loops_of_one] = "no list, the place a wire that reads itself",
    [counter_loops_of_two] = "no list, the place on a loop of two wires",
    [counter_loops_of_more] = "no list, the place on a longer loop",
    [counter_longest_loop] = "longest such loop",
    [counter_waiting_below_loop] = "no list, a wire below the place waits for a loop",
    [counter_kept_sheets] = "sheets with kept wires that passed the check",
    [counter_kept_sheets_full] = "of these with 64 cells",
    [counter_kept_cells_started] = "kept cells started with mark 1 and 0",
    [counter_kept_instants_in_rounds] = "instants accepted in rounds with kept wires",
    [counter_kept_instants_previewed] = "of these as their preview shows",
    [counter_kept_instants_scheduled] = "instants accepted along a schedule with kept wires",
    [counter_kept_instants_unknown] = "instants refused 20 with kept wires",
    [counter_kept_lists_made] = "schedules made with kept wires",
    [counter_lists_past_lasts] = "schedules that pass though a kind 18 names its own wire or a later one",
    [counter_kept_outputs_stored] = "kept wires whose cell holds the output",
    [counter_lasts_given] = "instants accepted in rounds in which a kind 18 gave its cell",
    [counter_lasts_given_fresh] = "of these under a reset that fires or in a body entered, from a cell that is not 0",
    [counter_lasts_under_pre] = "instants accepted in rounds with a kind 18 under a pre",
    [counter_lasts_in_arm] = "with a kind 18 in an arm",
    [counter_lasts_in_condition] = "with a kind 18 in a condition",
    [counter_lasts_under_reset] = "with a kind 18 under a reset",
    [counter_lasts_left_of_fby] = "with a kind 18 left of an fby",
    [counter_lasts_right_of_fby] = "with a kind 18 right of an fby",
    [counter_lasts_in_body] = "with a kind 18 in a machine's body",
    [counter_types_of_wires_refused] = "sheets refused 4 at a wire",
    [counter_kept_inputs_refused] = "sheets refused 4 at an input of type 2 or 3",
    [counter_lasts_refused_not_kept] = "sheets refused 7 at a kind 18 of a wire that is not kept",
    [counter_lasts_refused_not_there] = "sheets refused 7 at a kind 18 of a wire that is not there",
    [counter_lasts_refused_type] = "sheets refused 9 at a kind 18",
    [counter_cells_refused_beside_kept] = "sheets with kept wires refused 10",
    [counter_kept_cells_refused_mark_0] = "kept cells refused 13 for mark 0",
    [counter_kept_booleans_refused] = "kept Booleans refused 13 for a value above 1",
    [counter_machine_sheets] = "sheets with machines by construction",
    [counter_machines_started] = "machines started with mark 1 in state 0",
    [counter_machine_instants_scheduled] = "instants accepted along a schedule with machines",
    [counter_machine_instants_unknown] = "instants refused 20 with machines",
    [counter_machines_run] = "instants accepted in rounds in which a machine ran",
    [counter_machines_entered] = "of these with a state entered",
    [counter_machines_entered_away] = "of these into a body whose memory was away from its start",
    [counter_machines_left_away] = "instants accepted in rounds in which a body was left with its memory away from its start",
    [counter_machines_fresh_in_state_1] = "instants accepted in rounds with a machine in state 1 under a reset that fires or in a body entered",
    [counter_machines_accepted_by_rest] = "instants accepted in rounds only because bodies of machines rest",
    [counter_machines_under_pre] = "instants accepted in rounds with a machine under a pre",
    [counter_machines_in_arm] = "with a machine in an arm",
    [counter_machines_in_condition] = "with a machine in a condition",
    [counter_machines_under_reset] = "with a machine under a reset",
    [counter_machines_left_of_fby] = "with a machine left of an fby",
    [counter_machines_right_of_fby] = "with a machine right of an fby",
    [counter_machines_in_body] = "with a machine in a machine's body",
    [counter_kinds_20_refused] = "sheets refused 6 at kind 20",
    [counter_machines_refused_cell_65] = "sheets refused 10 at a machine",
    [counter_machines_refused_mark_0] = "machines refused 13 for mark 0",
    [counter_machines_refused_state] = "machines refused 13 for a state above 1",
    [counter_boards_of_1] = "boards of 1 sheet",
    [counter_boards_of_2] = "boards of 2 sheets",
    [counter_boards_of_3] = "boards of 3 sheets",
    [counter_boards_of_4] = "boards of 4 sheets",
    [counter_boards_of_5] = "boards of 5 sheets",
    [counter_boards_of_6] = "boards of 6 sheets",
    [counter_boards_of_7] = "boards of 7 sheets",
    [counter_boards_of_8] = "boards of 8 sheets",
    [counter_ticks_served] = "ticks that served a sheet",
    [counter_ticks_none_due] = "ticks with none due",
    [counter_ticks_none_due_no_sheet] = "of these with a number that names no sheet",
    [counter_ticks_unknown] = "ticks that served a sheet refused 20",
    [counter_ticks_unknown_after_accepted] = "of these with the sheet accepted before in the sequence",
    [counter_ticks_unknown_restarted] = "ticks that served a sheet refused 20 under a restart",
    [counter_ticks_unknown_restarted_away] = "of these with the memory away from its start",
    [counter_ticks_restarted] = "ticks that served a sheet under a restart",
    [counter_ticks_restarted_away] = "of these with the memory away from its start",
    [counter_ticks_restarted_kept_away] = "of these with a kept cell away from its start",
    [counter_ticks_restart_not_due] = "ticks with a restart mark of a sheet that is not due",
    [counter_ticks_restart_not_served] = "ticks with a restart mark of a sheet that is due and not served",
    [counter_ticks_due_above] = "ticks with due marks above the count",
    [counter_ticks_stored_above] = "ticks with stored marks above the count",
    [counter_ticks_restart_above] = "ticks with restart marks above the count",
    [counter_ticks_no_sheet] = "ticks with a number that names no sheet",
    [counter_ticks_marked_again] = "ticks with a due mark of a sheet whose mark is stored",
    [counter_ticks_same_sheet] = "ticks that served the sheet served last",
    [counter_ticks_waited] = "due sheets served behind the tick that marked them",
    [counter_ticks_longest_wait] = "most ticks until a due sheet was served, the marking one included",
    [counter_ticks_full_wait] = "due sheets served in as many ticks as there are sheets, more than one",
    [counter_ticks_alone] = "ticks that give the same with other memory and inputs of the other sheets",
    [counter_ticks_by_rounds] = "ticks that give what the sheet served gives by itself in rounds",
    [counter_ticks_other_state] = "ticks with a state of another length",
    [counter_frames_refused_at_count] = "boards refused 22 at the count",
    [counter_frames_refused_at_length] = "boards refused 22 at a length",
    [counter_frames_refused_at_end] = "of these at the end of the board",
    [counter_frames_refused_left_over] = "boards refused 22 for bytes left over",
    [counter_board_sheets_refused_empty] = "boards refused 1 for a sheet of length 0",
    [counter_board_sheets_refused_too_long] = "boards refused 1 for a sheet above 4,096 bytes",
    [counter_board_sheets_refused_behind_first] = "boards refused 1 to 11 in a sheet that is not the first",
    [counter_board_cells_refused_behind_first] = "ticks refused 13 in a sheet that is not the first",
    [counter_board_inputs_refused_behind_first] = "ticks refused 15 in a sheet that is not the first",
    [counter_frames_with_one_byte_changed] = "boards refused with one byte of count or lengths changed to every value",
    [counter_frames_cut] = "boards refused 22 when cut at every place",
    [counter_frames_longer] = "boards refused 22 when made longer",
    [counter_joins] = "pairs of sheets joined",
    [counter_joins_with_itself] = "of these a sheet with itself, undamaged",
    [counter_joins_16_inputs] = "pairs joined to 16 inputs",
    [counter_joins_64_wires] = "pairs joined to 64 wires",
    [counter_joins_16_outputs] = "pairs joined to 16 outputs",
    [counter_joins_64_cells] = "pairs joined to 64 cells",
    [counter_joins_4096_bytes] = "pairs joined to 4,096 bytes",
    [counter_joins_second_kept] = "pairs joined with kept wires in the second sheet",
    [counter_joins_second_lasts] = "with a kind 18 in the second sheet",
    [counter_joins_second_lasts_delayed] = "with one under a pre or right of an fby",
    [counter_joins_second_machines] = "with a machine in the second sheet",
    [counter_joins_second_inputs_delayed] = "with an input under a pre or right of an fby in the second sheet, and inputs in the first",
    [counter_joins_refused_first] = "joins refused 1 to 11 for the first sheet",
    [counter_joins_refused_first_of_two] = "of these with the second sheet refused too",
    [counter_joins_refused_second] = "joins refused 1 to 11 for the second sheet",
    [counter_joins_refused_second_too_long] = "of these with more than 4,096 bytes together",
    [counter_joins_refused_inputs] = "joins refused 23 for the inputs alone",
    [counter_joins_refused_wires] = "joins refused 23 for the wires alone",
    [counter_joins_refused_outputs] = "joins refused 23 for the outputs alone",
    [counter_joins_refused_cells] = "joins refused 23 for the cells alone",
    [counter_joins_refused_bytes] = "joins refused 23 for the length alone",
    [counter_joins_refused_17_inputs] = "joins refused 23 for 17 inputs alone",
    [counter_joins_refused_65_wires] = "joins refused 23 for 65 wires alone",
    [counter_joins_refused_17_outputs] = "joins refused 23 for 17 outputs alone",
    [counter_joins_refused_65_cells] = "joins refused 23 for 65 cells alone",
    [counter_joins_refused_4097_bytes] = "joins refused 23 for 4,097 bytes alone",
    [counter_joins_refused_sum_and_buffer] = "joins refused 23 with a buffer of another length",
    [counter_joins_refused_short] = "joins refused 16 for a buffer one byte short",
    [counter_joins_refused_long] = "joins refused 16 for a buffer one byte long",
    [counter_joins_refused_empty] = "joins refused 16 for an empty buffer",
    [counter_joins_refused_sum_of_lengths] = "joins refused 16 for a buffer of the sum of both lengths",
    [counter_joined_instants] = "instants of joined sheets accepted in rounds, as both parts are",
    [counter_joined_instants_refused_first] = "instants of joined sheets refused in rounds for the first part alone",
    [counter_joined_instants_refused_second] = "for the second part alone",
    [counter_joined_instants_refused_both] = "for both parts",
    [counter_joined_instants_unknown] = "instants of joined sheets refused 20",
    [counter_joined_rounds_of_first] = "instants of joined sheets accepted in rounds with more rounds in the first part",
    [counter_joined_rounds_of_second] = "with more rounds in the second part",
    [counter_joined_schedules] = "instants of joined sheets accepted along joined schedules, as both parts are",
    [counter_joined_schedules_refused_first] = "instants of joined sheets refused along joined schedules for the first part alone",
    [counter_joined_schedules_refused_second] = "for the second part alone",
    [counter_joined_schedules_refused_both] = "for both parts",
};

static void print_answers(const struct statistics *statistics)
{
    printf("%-10s", "answer");
    for (unsigned call = 0; call < calls; call++)
        printf(" %10s", rules_of[call].name);
    printf("\n");
    for (unsigned number = 0; number <= refusals; number++) {
        if (number == 0)
            printf("%-10s", "accepted");
        else
            printf("refusal %-2u", number);
        for (unsigned call = 0; call < calls; call++)
            printf(" %10lu", statistics->met[call][number]);
        printf("\n");
    }
}

static bool all_refusals_met(const struct statistics *statistics, enum call call)
{
    bool all_met = true;
    for (unsigned number = 1; number <= refusals; number++) {
        if ((rules_of[call].refusals >> number & 1) != 0 && statistics->met[call][number] == 0) {
            printf("refusal %u was never met by %s\n", number, rules_of[call].name);
            all_met = false;
        }
    }
    return all_met;
}

bool print_statistics(const struct statistics *statistics)
{
    bool all_met = true;
    print_answers(statistics);
    for (unsigned call = 0; call < calls; call++)
        all_met = all_refusals_met(statistics, call) && all_met;
    printf("instants accepted: %lu in rounds, %lu along a schedule\n", statistics->met[call_rounds][0],
           statistics->met[call_scheduled][0]);
    for (unsigned counter = 0; counter < counters; counter++) {
        printf("%s: %lu\n", counter_texts[counter], statistics->count[counter]);
        all_met = all_met && statistics->count[counter] != 0;
    }
    return all_met;
}
