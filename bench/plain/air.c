/* Primary air in plain C: a table of flows, and a search in it by halves. */
#include "plain.h"

#include "parts.h"

/* The flow of each step; bench/run writes it. */
static const uint16_t FLOWS[MOST_STEP + 1] = {
#include "flows.h"
};

uint64_t plain_flow_of_step(uint64_t step)
{
    if (step > MOST_STEP)
        return refused(13);
    return granted(FLOWS[step], 0, 0);
}

uint64_t plain_step_for_flow(uint64_t flow)
{
    unsigned low = 0, high = MOST_STEP;
    if (flow > MOST_FLOW)
        return refused(13);
    while (low < high) {
        unsigned middle = (low + high) / 2;
        if (FLOWS[middle] < flow)
            low = middle + 1;
        else
            high = middle;
    }
    return granted(high, 0, 0);
}
