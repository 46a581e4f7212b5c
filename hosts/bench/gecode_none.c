/* What stands for Gecode where it is not installed: see gecode.h. */
#include "gecode.h"

const int gecode_built = 0;

int gecode_agrees(const struct workload *workload)
{
    (void)workload;
    return 1;
}

double run_gecode(const void *workload, unsigned times)
{
    (void)workload;
    (void)times;
    return 0;
}

double run_gecode_alone(const void *workload, unsigned times)
{
    return run_gecode(workload, times);
}
