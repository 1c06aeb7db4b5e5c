/* The number and the value of a node, by a function for each kind. Rests on nodes that are linked. */
#include "benchmark/careful/internal.h"

/* Both functions of a kind whose result is that expression of its two operands; then those of a kind with one operand. */
#define WITH_TWO_OPERANDS(name, result) \
    static uint32_t number_of_##name(const struct instant *instant, const struct node *node, bool fresh) \
    { \
        const uint32_t first = number_of(instant, node + 1, fresh); \
        const uint32_t second = number_of(instant, second_of(node), fresh); \
        return (result); \
    } \
    static uint64_t value_of_##name(const struct instant *instant, const struct node *node, bool fresh) \
    { \
        const uint64_t value = value_of(instant, node + 1, fresh); \
        if (!is_known(value)) \
            return 0; \
        const uint64_t other = value_of(instant, second_of(node), fresh); \
        const uint32_t first = (uint32_t)value, second = (uint32_t)other; \
        return (other & KNOWN) | (uint32_t)(result); \
    }

#define WITH_ONE_OPERAND(name, result) \
    static uint32_t number_of_##name(const struct instant *instant, const struct node *node, bool fresh) \
    { \
        const uint32_t operand = number_of(instant, node + 1, fresh); \
        return (result); \
    } \
    static uint64_t value_of_##name(const struct instant *instant, const struct node *node, bool fresh) \
    { \
        const uint64_t value = value_of(instant, node + 1, fresh); \
        const uint32_t operand = (uint32_t)value; \
        return (value & KNOWN) | (uint32_t)(result); \
    }

#define SIGN UINT32_C(0x80000000)

/* The end on the side of a number's sign: a sum that does not fit has passed the end on the side of its operands. */
static inline uint32_t end_of(uint32_t number)
{
    return (number >> 31) + (SIGN - 1);
}

static inline uint32_t sum_of(uint32_t first, uint32_t second)
{
    int32_t sum;
    return __builtin_add_overflow((int32_t)first, (int32_t)second, &sum) ? end_of(first) : (uint32_t)sum;
}

static inline uint32_t difference_of(uint32_t first, uint32_t second)
{
    int32_t difference;
    return __builtin_sub_overflow((int32_t)first, (int32_t)second, &difference) ? end_of(first) : (uint32_t)difference;
}

WITH_ONE_OPERAND(not, operand ^ 1u)
WITH_ONE_OPERAND(negate, difference_of(0, operand))
WITH_TWO_OPERANDS(and, first & second)
WITH_TWO_OPERANDS(or, first | second)
WITH_TWO_OPERANDS(add, sum_of(first, second))
WITH_TWO_OPERANDS(subtract, difference_of(first, second))
WITH_TWO_OPERANDS(less, (first ^ SIGN) < (second ^ SIGN))
WITH_TWO_OPERANDS(equal, first == second)

static uint32_t number_of_constant(const struct instant *instant, const struct node *node, bool fresh)
{
    (void)instant, (void)fresh;
    return node->is.number;
}

static uint32_t number_of_input(const struct instant *instant, const struct node *node, bool fresh)
{
    (void)fresh;
    return instant->inputs[node->is.number];
}

static uint32_t number_of_choice(const struct instant *instant, const struct node *node, bool fresh)
{
    const bool chosen = number_of(instant, node + 1, fresh) != 0;
    return number_of(instant, chosen ? second_of(node) : third_of(node), fresh);
}

static uint32_t number_of_reset(const struct instant *instant, const struct node *node, bool fresh)
{
    const bool fires = number_of(instant, node + 1, fresh) != 0;
    return number_of(instant, second_of(node), fresh || fires);
}

static uint32_t number_of_pre(const struct instant *instant, const struct node *node, bool fresh)
{
    return fresh ? node->is.number : read_number(instant->memory + bytes_of_cell * node->first_cell + 1);
}

static uint32_t number_of_fby(const struct instant *instant, const struct node *node, bool fresh)
{
    const uint8_t *const cell = instant->memory + bytes_of_cell * node->first_cell;
    return fresh || cell[0] == 0 ? number_of(instant, node + 1, fresh) : read_number(cell + 1);
}

/* Fresh or not: no reset touches a kept cell. */
static uint32_t number_of_last(const struct instant *instant, const struct node *node, bool fresh)
{
    (void)fresh;
    return read_number(instant->memory + instant->program->kept_place[node->is.number] + 1);
}

static uint64_t value_of_constant(const struct instant *instant, const struct node *node, bool fresh)
{
    return KNOWN | number_of_constant(instant, node, fresh);
}

static uint64_t value_of_input(const struct instant *instant, const struct node *node, bool fresh)
{
    return KNOWN | number_of_input(instant, node, fresh);
}

static uint64_t value_of_if(const struct instant *instant, const struct node *node, bool fresh)
{
    const uint64_t condition = value_of(instant, node + 1, fresh);
    if (!is_known(condition))
        return 0;
    const uint64_t then_arm = value_of(instant, second_of(node), fresh);
    if (!is_known(then_arm))
        return 0;
    const uint64_t else_arm = value_of(instant, third_of(node), fresh);
    if (!is_known(else_arm))
        return 0;
    return (uint32_t)condition != 0 ? then_arm : else_arm;
}

static uint64_t value_of_present(const struct instant *instant, const struct node *node, bool fresh)
{
    const uint64_t condition = value_of(instant, node + 1, fresh);
    if (!is_known(condition))
        return 0;
    return value_of(instant, (uint32_t)condition != 0 ? second_of(node) : third_of(node), fresh);
}

static uint64_t value_of_reset(const struct instant *instant, const struct node *node, bool fresh)
{
    const uint64_t condition = value_of(instant, node + 1, fresh);
    if (!is_known(condition))
        return 0;
    return value_of(instant, second_of(node), fresh || (uint32_t)condition != 0);
}

static uint64_t value_of_pre(const struct instant *instant, const struct node *node, bool fresh)
{
    return KNOWN | number_of_pre(instant, node, fresh);
}

static uint64_t value_of_fby(const struct instant *instant, const struct node *node, bool fresh)
{
    const uint8_t *const cell = instant->memory + bytes_of_cell * node->first_cell;
    return fresh || cell[0] == 0 ? value_of(instant, node + 1, fresh) : KNOWN | read_number(cell + 1);
}

static uint64_t value_of_last(const struct instant *instant, const struct node *node, bool fresh)
{
    return KNOWN | number_of_last(instant, node, fresh);
}

static uint32_t number_of_machine(const struct instant *instant, const struct node *node, bool fresh)
{
    const bool second = second_state(instant, node, fresh);
    const bool leaves = number_of(instant, condition_of(node, second), fresh) != 0;
    return number_of(instant, body_of(instant->program, node, second != leaves), fresh || leaves);
}

static uint64_t value_of_machine(const struct instant *instant, const struct node *node, bool fresh)
{
    const bool second = second_state(instant, node, fresh);
    const uint64_t condition = value_of(instant, condition_of(node, second), fresh);
    if (!is_known(condition))
        return 0;
    const bool leaves = (uint32_t)condition != 0;
    return value_of(instant, body_of(instant->program, node, second != leaves), fresh || leaves);
}

number_function *const number_functions[kinds] = {
    [kind_boolean] = number_of_constant,
    [kind_number] = number_of_constant,
    [kind_input] = number_of_input,
    [kind_not] = number_of_not,
    [kind_negate] = number_of_negate,
    [kind_and] = number_of_and,
    [kind_or] = number_of_or,
    [kind_add] = number_of_add,
    [kind_subtract] = number_of_subtract,
    [kind_less] = number_of_less,
    [kind_equal] = number_of_equal,
    [kind_if] = number_of_choice,
    [kind_present] = number_of_choice,
    [kind_reset] = number_of_reset,
    [kind_boolean_pre] = number_of_pre,
    [kind_number_pre] = number_of_pre,
    [kind_fby] = number_of_fby,
    [kind_last] = number_of_last,
    [kind_machine] = number_of_machine,
};

value_function *const value_functions[kinds] = {
    [kind_boolean] = value_of_constant,
    [kind_number] = value_of_constant,
    [kind_input] = value_of_input,
    [kind_not] = value_of_not,
    [kind_negate] = value_of_negate,
    [kind_and] = value_of_and,
    [kind_or] = value_of_or,
    [kind_add] = value_of_add,
    [kind_subtract] = value_of_subtract,
    [kind_less] = value_of_less,
    [kind_equal] = value_of_equal,
    [kind_if] = value_of_if,
    [kind_present] = value_of_present,
    [kind_reset] = value_of_reset,
    [kind_boolean_pre] = value_of_pre,
    [kind_number_pre] = value_of_pre,
    [kind_fby] = value_of_fby,
    [kind_last] = value_of_last,
    [kind_machine] = value_of_machine,
};
