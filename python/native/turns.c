/* Draws of many places: in pieces, without Python's lock, and with checks for signals. */
#include "native.h"

#include <time.h>

/* How long a draw goes on before it checks for signals, in nanoseconds, and after how many steps it asks for the time. */
enum { MOMENT = 20000000, PIECE = 1 << 13 };

static int64_t now(void)
{
    struct timespec time;
    clock_gettime(CLOCK_MONOTONIC, &time);
    return (int64_t)time.tv_sec * 1000000000 + time.tv_nsec;
}

int begin_draw(Generator *rng, size_t count, Draw *draw)
{
    if (hold_turn(rng, count * sizeof(uint64_t), &draw->turn) < 0) {
        return -1;
    }
    keep_state(rng, &draw->before);
    return 0;
}

void end_draw(Generator *rng, Draw *draw, int failed)
{
    if (failed) {
        restore_state(rng, &draw->before);
    }
    end_turn(rng, &draw->turn);
}

/* Makes the steps after the first `done`, for a moment, and adds them to `done`. Releases Python's lock. */
static nanorand_status make_pieces(Generator *rng, size_t *done, size_t count, Steps *steps, void *plan)
{
    PyThreadState *apart = PyEval_SaveThread();
    const int64_t end = now() + MOMENT;
    nanorand_status status;
    do {
        size_t first = *done;
        *done = count - first < PIECE ? count : first + PIECE;
        status = steps(rng, plan, first, *done);
    } while (status == NANORAND_OK && *done < count && now() < end);
    PyEval_RestoreThread(apart);
    return status;
}

int make_steps(Generator *rng, Draw *draw, size_t count, Steps *steps, void *plan)
{
    if (!draw->turn.held) {
        return steps(rng, plan, 0, count);
    }
    nanorand_status status = NANORAND_OK;
    size_t done = 0;
    while (status == NANORAND_OK && done < count) {
        status = make_pieces(rng, &done, count, steps, plan);
        if (PyErr_CheckSignals() < 0) {
            restore_state(rng, &draw->before);
            return -1;
        }
    }
    return status;
}

int draw_steps(Generator *rng, Draw *draw, size_t count, Steps *steps, void *plan)
{
    int status = make_steps(rng, draw, count, steps, plan);
    if (status > NANORAND_OK) {
        raise_status((nanorand_status)status);
    }
    return status == NANORAND_OK ? 0 : -1;
}
