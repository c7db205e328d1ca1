/* carry.c: a run that is carried over power cycles. Usage: carry [DAYS]
 *
 * A clock hears radio time once a day, or not at all. Each check is what the clock shows less what the radio says, in milliseconds. The program runs
 * DAYS days. Then its power goes: it saves the run to the file clock.saved in this folder, and ends. Started again it finds the file and carries on.
 * Without DAYS it runs to the end. However it was cut, the lines that it prints are those of a run without a cut.
 *
 * Two states, the offset (ms) and the rate (ms a day). At power-up nothing is known of either.
 */
#define _POSIX_C_SOURCE 200809L /* for fsync, which C has not */
#include <errno.h>
#include <fcntl.h>
#include <math.h>
#include <stdio.h>
#include <stdlib.h>
#include <unistd.h>

#include "goxundar.h"

enum { P = 1, M = 2, R = 2, DAYS = 9 };
enum { LENGTH = GOXUNDAR_SAVED_LEN(M) };

static const char *const file = "clock.saved", *const half = "clock.saved.new";

/* The model. Every stretch must be handed the same one: the saved bytes hold its sizes alone. */
static const double design[P * M] = {1, 0};
static const double noise[P * P] = {25}; /* a check is off by 5 ms */
static const double transition[M * M] = {
    1, 1, /* offset: itself, plus the rate */
    0, 1, /* rate: itself */
};
static const double loading[M * R] = {1, 0, 0, 1};
static const double disturbances[R * R] = {0.04, 0, 0, 0.01};
static const double zeros[M * M] = {0};
static const uint8_t unknown[M] = {1, 1};

/* Here the days' checks stand in a list, and those of a power cycle are run at once. A driver has the radio, and runs each as it comes: n is 1 then,
 * and what one call has saved the next one goes on from. */
static const double checks[DAYS] = {NAN, 212, NAN, 236.5, 251, NAN, NAN, 288.5, 313};

/* What a stretch of up to DAYS days gives. */
static double pred_mean[(DAYS + 1) * M], pred_cov[(DAYS + 1) * M * M], pred_inf[(DAYS + 1) * M * M], filt_mean[DAYS * M], filt_cov[DAYS * M * M];
static double v[DAYS * P], f_star[DAYS * P], f_inf[DAYS * P], m_star[DAYS * P * M], m_inf[DAYS * P * M], loglik;
static uint8_t kinds[DAYS * P];
static size_t d_diffuse, heard, news, cov_off, mean_off;

static uint32_t run_days(const double *y, size_t n, uint8_t begins, const uint8_t *saved, size_t saved_len, uint8_t last, uint8_t *save)
{
    return goxundar_stretch(
        P, M, R, n, design, P * M, NULL, 0, 0, noise, P * P, transition, M * M, NULL, 0, loading, M * R, disturbances, R * R,
        zeros, M, zeros, P, zeros, M, zeros, M * M, unknown, M, y, n * P, begins, saved, saved_len, last,
        pred_mean, GOXUNDAR_PRED_MEAN_LEN(M, n), pred_cov, GOXUNDAR_PRED_COV_LEN(M, n), pred_inf, GOXUNDAR_PRED_COV_LEN(M, n),
        filt_mean, GOXUNDAR_MEAN_LEN(M, n), filt_cov, GOXUNDAR_COV_LEN(M, n), kinds, GOXUNDAR_RECORD_LEN(P, n),
        v, GOXUNDAR_RECORD_LEN(P, n), f_star, GOXUNDAR_RECORD_LEN(P, n), f_inf, GOXUNDAR_RECORD_LEN(P, n),
        m_star, GOXUNDAR_GAIN_LEN(P, M, n), m_inf, GOXUNDAR_GAIN_LEN(P, M, n), save, last ? 0 : LENGTH,
        &loglik, &d_diffuse, &heard, &news, &cov_off, &mean_off);
}

/* ---- the file */

static int give_up(const char *what, const char *why)
{
    fprintf(stderr, "carry: %s: %s\n", what, why);
    return 1;
}

/* Reads up to a byte more than a saved run has, so that the library sees a file that is too long. The count, or -1 where there is no file. Only that
 * begins a run: a file that is there and can't be read is an error, and an empty one is the library's to refuse. */
static int read_saved(uint8_t *saved)
{
    FILE *f = fopen(file, "rb");
    int count;
    if (!f && errno == ENOENT) return -1;
    if (!f) exit(give_up(file, "can't be opened"));
    count = (int)fread(saved, 1, LENGTH + 1, f);
    if (ferror(f)) exit(give_up(file, "can't be read"));
    fclose(f);
    return count;
}

/* Writes another file, sees it onto the disk, and only then gives it the name. If power goes meanwhile, the older file is there, whole. Last the
 * folder is seen onto the disk: once this returns, the new one is what will be found. (Some file systems need no such thing, and say EINVAL.) */
static int write_saved(const uint8_t *save)
{
    FILE *f = fopen(half, "wb");
    int folder = open(".", O_RDONLY);
    int ok = f && folder >= 0 && fwrite(save, 1, LENGTH, f) == LENGTH && fflush(f) == 0 && fsync(fileno(f)) == 0;
    if (f) ok = fclose(f) == 0 && ok;
    ok = ok && rename(half, file) == 0 && (fsync(folder) == 0 || errno == EINVAL);
    if (folder >= 0) close(folder);
    return ok;
}

/* ---- the run */

/* The days done, as the saved bytes say: number 3 of their first section. */
static size_t days_done(const uint8_t *saved)
{
    size_t done = 0, at;
    for (at = 28; at < 36; at++) done = done << 8 | saved[at];
    return done;
}

/* The t-th day of the stretch. */
static void print_day(size_t day, size_t t)
{
    const double *mean = filt_mean + t * M, *cov = filt_cov + t * M * M, *next = pred_inf + (t + 1) * M * M;
    double unsettled = 0;
    int i;
    for (i = 0; i < M * M; i++) unsettled += next[i] * next[i];
    printf("day %lu: ", (unsigned long)day);
    if (isnan(checks[day]))
        printf("%9s", "no check");
    else
        printf("%9.1f", checks[day]);
    if (unsettled > 1e-10)
        printf("  not known yet\n");
    else
        printf("  offset %7.2f +- %5.2f  rate %6.2f +- %5.2f\n", mean[0], sqrt(cov[0]), mean[1], sqrt(cov[M + 1]));
    /* Nothing is refused for an overflow, so look in every stretch. The day is told plus 1, since the run began; it is carried with the run. */
    if (cov_off == day + 1 || mean_off == day + 1) printf("day %lu: numbers ran off: is the model mistyped?\n", (unsigned long)day);
}

int main(int argc, char **argv)
{
    uint8_t saved[LENGTH + 1], save[LENGTH]; /* two arrays: they may not overlap */
    int count = read_saved(saved);
    uint8_t begins = count < 0;
    size_t first = count == LENGTH ? days_done(saved) : 0, n, t;
    uint32_t refusal;

    if (first >= DAYS) return give_up(file, "is not a run of these days"); /* the library would not read past the checks; this program would */
    n = DAYS - first;
    if (argc > 1 && (size_t)atoi(argv[1]) < n) n = (size_t)atoi(argv[1]);
    refusal = run_days(checks + first, n, begins, saved, begins ? 0 : (size_t)count, first + n == DAYS, save);
    if (refusal == GOXUNDAR_BAD_SAVED) return give_up(file, "is no run of this clock: put back a good copy, or remove it to begin anew");
    if (refusal != GOXUNDAR_ANSWERED) {
        fprintf(stderr, "carry: refused: %u\n", (unsigned)refusal); /* goxundar_refusal has the names */
        return 1;
    }
    for (t = 0; t < n; t++) print_day(first + t, t);
    if (first + n < DAYS) return write_saved(save) ? 0 : give_up(file, "can't be written"); /* power goes */
    printf("heard %u, news %u, days not settled at their start %u, log-likelihood %.6f\n",
           (unsigned)heard, (unsigned)news, (unsigned)d_diffuse, loglik);
    remove(file); /* the run is over */
    return 0;
}
