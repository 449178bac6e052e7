#include "figures.h"

#include <math.h>
#include <stdlib.h>

static int compare_numbers(const void *a, const void *b)
{
    double x = *(const double *)a;
    double y = *(const double *)b;

    return (x > y) - (x < y);
}

double median(double *numbers, int count)
{
    qsort(numbers, (size_t)count, sizeof *numbers, compare_numbers);
    return numbers[count / 2];
}

void add_ratio(struct ratios *r, double ratio)
{
    if (r->count == 0 || ratio < r->smallest)
        r->smallest = ratio;
    r->count++;
    r->log_sum += log(ratio);
}

double mean_ratio(const struct ratios *r)
{
    return exp(r->log_sum / r->count);
}
