/* The evaluator as an implementation of the calls. Rests on evaluator.h and on the table of calls. */
#ifndef EVALUATOR_CALLS_H
#define EVALUATOR_CALLS_H

#include "common/calls.h"
#include "evaluator/evaluator.h"

static const struct implementation evaluator = {evaluator_check,     evaluator_start,    evaluator_preview, evaluator_rounds,
                                                evaluator_scheduled, evaluator_schedule, evaluator_tick,    evaluator_join};

#endif
