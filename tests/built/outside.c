/* outside.c: runs the smoother over models that are read as text, and prints what it answers, for outside.py.
 *
 * A model is its sizes p, m, r and n; the count of listed designs, 0 for a constant one, and the marker; the count of listed transitions; and then
 * the parts z or zs, h, ts, rr, q, c, d, a1, p_star, flags and y. Doubles are in hexadecimal, so that none is rounded on the way, and a gap is nan.
 * A line goes out for each model: the refusal, and where that is 0 the answer's first four places, then the predicted, filtered and smoothed parts.
 */
#include <stdio.h>
#include <stdlib.h>

#include "goxundar.h"

enum { M = 4, P = 3, N = 14, LISTED = 20 }; /* the largest that outside.py makes */

static void give_up(const char *why)
{
    fprintf(stderr, "outside: %s\n", why);
    exit(1);
}

static size_t size(size_t most)
{
    unsigned long x;
    if (scanf("%lu", &x) != 1 || x > most) give_up("a count that is not there, or too large");
    return (size_t)x;
}

static void doubles(double *to, size_t count)
{
    while (count-- > 0)
        if (scanf("%lf", to++) != 1) give_up("a number that is not there");
}

static void print(const double *from, size_t count)
{
    while (count-- > 0) printf(" %a", *from++);
}

int main(void)
{
    static double z[LISTED * P * M], h[P * P], ts[LISTED * M * M], rr[M * M], q[M * M], c[M], d[P], a1[M], p_star[M * M], y[N * P];
    static double pred_mean[(N + 1) * M], pred_cov[(N + 1) * M * M], pred_inf[(N + 1) * M * M], filt_mean[N * M], filt_cov[N * M * M];
    static double v[N * P], f_star[N * P], f_inf[N * P], m_star[N * P * M], m_inf[N * P * M], sm_mean[N * M], sm_cov[N * M * M];
    static uint8_t flags[M], kinds[N * P];
    size_t models = size(10000);

    for (; models > 0; models--) {
        size_t p = size(P), m = size(M), r = size(M), n = size(N), designs = size(LISTED), repeats = size(1), matrices = size(LISTED);
        size_t z_len = (designs > 0 ? designs : 1) * p * m, d_diffuse, heard, news, cov_off, mean_off, i;
        double loglik;
        uint32_t refusal;
        doubles(z, z_len);
        doubles(h, p * p);
        doubles(ts, matrices * m * m);
        doubles(rr, m * r);
        doubles(q, r * r);
        doubles(c, m);
        doubles(d, p);
        doubles(a1, m);
        doubles(p_star, m * m);
        for (i = 0; i < m; i++) flags[i] = (uint8_t)size(1);
        doubles(y, n * p);
        refusal = goxundar_smooth(
            p, m, r, n, designs > 0 ? NULL : z, designs > 0 ? 0 : z_len, designs > 0 ? z : NULL, designs > 0 ? z_len : 0, (uint8_t)repeats,
            h, p * p, NULL, 0, ts, matrices * m * m, rr, m * r, q, r * r, c, m, d, p, a1, m, p_star, m * m, flags, m, y, n * p,
            pred_mean, GOXUNDAR_PRED_MEAN_LEN(m, n), pred_cov, GOXUNDAR_PRED_COV_LEN(m, n), pred_inf, GOXUNDAR_PRED_COV_LEN(m, n),
            filt_mean, GOXUNDAR_MEAN_LEN(m, n), filt_cov, GOXUNDAR_COV_LEN(m, n), kinds, GOXUNDAR_RECORD_LEN(p, n),
            v, GOXUNDAR_RECORD_LEN(p, n), f_star, GOXUNDAR_RECORD_LEN(p, n), f_inf, GOXUNDAR_RECORD_LEN(p, n),
            m_star, GOXUNDAR_GAIN_LEN(p, m, n), m_inf, GOXUNDAR_GAIN_LEN(p, m, n),
            sm_mean, GOXUNDAR_MEAN_LEN(m, n), sm_cov, GOXUNDAR_COV_LEN(m, n), &loglik, &d_diffuse, &heard, &news, &cov_off, &mean_off);
        printf("%u", (unsigned)refusal);
        if (refusal == GOXUNDAR_ANSWERED) {
            printf(" %a %lu %lu %lu", loglik, (unsigned long)d_diffuse, (unsigned long)heard, (unsigned long)news);
            print(pred_mean, GOXUNDAR_PRED_MEAN_LEN(m, n));
            print(pred_cov, GOXUNDAR_PRED_COV_LEN(m, n));
            print(filt_mean, GOXUNDAR_MEAN_LEN(m, n));
            print(filt_cov, GOXUNDAR_COV_LEN(m, n));
            print(sm_mean, GOXUNDAR_MEAN_LEN(m, n));
            print(sm_cov, GOXUNDAR_COV_LEN(m, n));
        }
        putchar('\n');
    }
    return 0;
}
