/* The library under test, with the calls that C is not given; with -DSELF_TEST the evaluator stands in for it, so that the tests can try
 * themselves before there is a library. Rests on include/nuthatchbed.h, on probe.h and, with -DSELF_TEST, on the evaluator.
 *
 * tests/run builds the programs with the library. To try itself, a program is built with -DSELF_TEST added and the C files of
 * tests/evaluator in place of the archives. Either may also be built with -fsanitize=address,undefined.
 */
#ifndef LIBRARY_H
#define LIBRARY_H

#ifdef SELF_TEST
#define nuthatchbed_check evaluator_check
#define nuthatchbed_start evaluator_start
#define nuthatchbed_rounds evaluator_rounds
#define nuthatchbed_scheduled evaluator_scheduled
#define probe_preview evaluator_preview
#define probe_schedule evaluator_schedule
#define probe_tick evaluator_tick
#define probe_join evaluator_join
#endif

#include "common/calls.h"
#include "common/probe.h"
#include "nuthatchbed.h"

static const struct implementation library = {nuthatchbed_check,     nuthatchbed_start, probe_preview, nuthatchbed_rounds,
                                              nuthatchbed_scheduled, probe_schedule,    probe_tick,    probe_join};

#endif
