/* example.c: a crystal's offset and rate from sparse radio checks, with gaps, and with a check that arrives on two inputs.
 *
 * A panel's clock runs on a crystal. Every six hours it may hear radio time, on either of two inputs, or on both, or not at all. A reading is what
 * the clock shows less what the radio says, in milliseconds.
 *
 * Three states:
 *   0  the offset, ms. It grows by the rate, and wanders a little by itself
 *   1  the rate, ms a period. It wanders slowly, with temperature
 *   2  the radio's own error in this period's check, ms. Each check has a new one
 *
 * Both inputs read offset + radio error, with no noise of their own (H = 0). So a check that arrives on the second input too is the same check, and
 * no news: the filter finds that out, and does not apply it twice.
 *
 * At power-up nothing is known of offset and rate, so both are flagged. Of the radio's error the mean, 0, and the variance are known.
 */
#include <math.h>
#include <stdio.h>

#include "goxundar.h"

enum { P = 2, M = 3, R = 3, N = 10 };

static const double design[P * M] = {
    1, 0, 1, /* input 0: offset + radio error */
    1, 0, 1, /* input 1: the same */
};
static const double noise[P * P] = {0};
static const double transition[M * M] = {
    1, 1, 0, /* offset: itself, plus the rate */
    0, 1, 0, /* rate: itself */
    0, 0, 0, /* radio error: nothing of the last one stays */
};
static const double loading[M * R] = {
    1, 0, 0, /* each state has a disturbance of its own */
    0, 1, 0,
    0, 0, 1,
};
static const double disturbances[R * R] = {
    0.04, 0, 0, /* the offset wanders by 0.2 ms in a period */
    0, 0.01, 0, /* the rate by 0.1 ms a period */
    0, 0, 25,   /* a check is off by 5 ms */
};
static const double zeros[M] = {0};
static const double start_cov[M * M] = {
    0, 0, 0, /* flagged states have zeros here */
    0, 0, 0,
    0, 0, 25,
};
static const uint8_t unknown[M] = {1, 1, 0};

/* The states are settled where no covariance is left that has no bound: the sum of squares is the library's own test. */
static int settled(const double *inf)
{
    double sum = 0;
    for (int i = 0; i < M * M; i++) sum += inf[i] * inf[i];
    return !(sum > 1e-10);
}

/* What became of a reading, in a word. The last three are no news: nothing moved, and the kind says why. */
static const char *word(uint8_t kind)
{
    switch (kind) {
    case GOXUNDAR_GAP: return "";
    case GOXUNDAR_USUAL: return "news";
    case GOXUNDAR_DIFFUSE: return "first news";
    case GOXUNDAR_TOO_SMALL: return "adds nothing";
    case GOXUNDAR_BELOW_DUST: return "only rounding";
    default: return "doubtful"; /* GOXUNDAR_FAILED_REPLAY */
    }
}

static void print_reading(double x, uint8_t kind)
{
    if (kind == GOXUNDAR_GAP)
        printf("  %6s %-13s", "-", word(kind));
    else
        printf("  %6.1f %-13s", x, word(kind));
}

int main(void)
{
    const double gap = NAN;
    const double readings[N * P] = {
        gap,   gap,   /* power-up: nothing heard yet */
        212.0, gap,   /* one check */
        gap,   gap,
        236.5, 236.5, /* one check, on both inputs */
        gap,   251.0,
        gap,   gap,
        gap,   gap,
        288.5, 288.5,
        gap,   gap,
        313.0, gap,
    };

    /* Lent for the outputs. The macros say how long each must be. */
    double pred_mean[(N + 1) * M], pred_cov[(N + 1) * M * M], pred_inf[(N + 1) * M * M];
    double filt_mean[N * M], filt_cov[N * M * M], sm_mean[N * M], sm_cov[N * M * M];
    uint8_t kinds[N * P];
    double v[N * P], f_star[N * P], f_inf[N * P], m_star[N * P * M], m_inf[N * P * M];
    double loglik;
    size_t d_diffuse, heard, news, cov_off, mean_off;

    uint32_t refusal = goxundar_smooth(
        P, M, R, N,
        design, P * M, /* the same design in all periods, */
        NULL, 0, 0,    /* so no list of them, and none to repeat */
        noise, P * P,
        transition, M * M, /* the same in all periods too, */
        NULL, 0,           /* so no list of them either */
        loading, M * R, disturbances, R * R,
        zeros, M, zeros, P, /* nothing is added to states and readings */
        zeros, M, start_cov, M * M, unknown, M,
        readings, N * P,
        pred_mean, GOXUNDAR_PRED_MEAN_LEN(M, N), pred_cov, GOXUNDAR_PRED_COV_LEN(M, N), pred_inf, GOXUNDAR_PRED_COV_LEN(M, N),
        filt_mean, GOXUNDAR_MEAN_LEN(M, N), filt_cov, GOXUNDAR_COV_LEN(M, N),
        kinds, GOXUNDAR_RECORD_LEN(P, N), v, GOXUNDAR_RECORD_LEN(P, N),
        f_star, GOXUNDAR_RECORD_LEN(P, N), f_inf, GOXUNDAR_RECORD_LEN(P, N),
        m_star, GOXUNDAR_GAIN_LEN(P, M, N), m_inf, GOXUNDAR_GAIN_LEN(P, M, N),
        sm_mean, GOXUNDAR_MEAN_LEN(M, N), sm_cov, GOXUNDAR_COV_LEN(M, N),
        &loglik, &d_diffuse, &heard, &news, &cov_off, &mean_off);
    if (refusal != GOXUNDAR_ANSWERED) {
        printf("refused: %u\n", (unsigned)refusal); /* goxundar_refusal has the names */
        return 1;
    }

    printf("period  input 0               input 1               offset so far      rate so far          offset, in hindsight\n");
    for (int t = 0; t < N; t++) {
        const double *mean = filt_mean + t * M, *cov = filt_cov + t * M * M;
        printf("%6d", t);
        for (int i = 0; i < P; i++) print_reading(readings[t * P + i], kinds[t * P + i]);
        /* Until the states are settled a standard deviation would be of the bounded part alone, and mislead. */
        if (settled(pred_inf + (t + 1) * M * M))
            printf("  %8.2f +- %5.2f  %7.2f +- %5.2f", mean[0], sqrt(cov[0]), mean[1], sqrt(cov[M + 1]));
        else
            printf("  %-17s  %-16s", "not known yet", "not known yet");
        printf("     %8.2f +- %5.2f\n", sm_mean[t * M], sqrt(sm_cov[t * M * M]));
    }
    printf("heard %u, news %u, periods not settled at their start %u, log-likelihood %.6f\n",
           (unsigned)heard, (unsigned)news, (unsigned)d_diffuse, loglik);
    /* Nothing is refused for an overflow, so look. 0 is none, else it is the period plus 1. bindings/rust/examples/mistyped.rs has such a model. */
    if (cov_off) printf("a covariance ran off in period %u: is the model mistyped?\n", (unsigned)(cov_off - 1));
    if (mean_off) printf("a mean ran off in period %u: is the model mistyped?\n", (unsigned)(mean_off - 1));
    return 0;
}
