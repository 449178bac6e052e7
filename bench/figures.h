/* Figures made of many measurements. */
#ifndef FIGURES_H
#define FIGURES_H

/* The median of some numbers, which it sorts. */
double median(double *numbers, int count);

/* What the ratios of a table come to; all zero before the first. */
struct ratios {
    int count;
    double smallest;
    double log_sum;
};

void add_ratio(struct ratios *r, double ratio);

/* The geometric mean. */
double mean_ratio(const struct ratios *r);

#endif
