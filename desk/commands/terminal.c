#include "commands/output.h"

#include "base/file.h"
#include "render/layout.h"

#include <errno.h>
#include <signal.h>
#include <stdlib.h>
#include <string.h>
#include <sys/ioctl.h>
#include <sys/time.h>
#include <unistd.h>

#define PLAIN_COLUMNS 80
#define LEAST_COLUMNS 40
#define MOST_COLUMNS 160

/* The columns that a terminal has. */
static unsigned width_of(int descriptor)
{
    struct winsize size = { 0 };
    return ioctl(descriptor, TIOCGWINSZ, &size) == 0 && size.ws_col > 0 ? size.ws_col
                                                                        : PLAIN_COLUMNS;
}

/* Those that text is laid out for. */
static unsigned columns_of(int descriptor)
{
    unsigned width = width_of(descriptor);
    return width < LEAST_COLUMNS ? LEAST_COLUMNS : width > MOST_COLUMNS ? MOST_COLUMNS : width;
}

/* A terminal that does what it is told to in ANSI sequences. */
static bool is_able(int descriptor)
{
    const char *kind = getenv("TERM");
    return isatty(descriptor) && kind != NULL && *kind != '\0' && strcmp(kind, "dumb") != 0;
}

struct screen output_screen(void)
{
    const char *no_colour = getenv("NO_COLOR");
    struct screen screen = { PLAIN_COLUMNS, false };
    if (isatty(STDOUT_FILENO))
        screen.columns = columns_of(STDOUT_FILENO);
    screen.colour = is_able(STDOUT_FILENO) && (no_colour == NULL || *no_colour == '\0');
    return screen;
}

/* The sign of life has been shown so many times. */
static volatile sig_atomic_t ticks;

static bool in_progress;

/* Only asks for what a handler may ask for. */
static void tick(int signal)
{
    static const char signs[4][4] = { " -\b\b", " \\\b\b", " |\b\b", " /\b\b" };
    int before = errno;
    (void)signal;
    ssize_t written = write(STDERR_FILENO, signs[ticks & 3], sizeof signs[0]);
    ticks = written > 0 ? (ticks + 1) & 3 : ticks;
    errno = before;
}

/* The handler each half second, or no longer. */
static void set_timer(bool on)
{
    struct itimerval half = { { 0, on ? 500000 : 0 }, { 0, on ? 500000 : 0 } };
    struct sigaction action;
    memset(&action, 0, sizeof action);
    sigemptyset(&action.sa_mask);
    action.sa_handler = on ? tick : SIG_DFL;
    action.sa_flags = SA_RESTART;
    if (!on)
        setitimer(ITIMER_REAL, &half, NULL);
    if (sigaction(SIGALRM, &action, NULL) == 0 && on)
        setitimer(ITIMER_REAL, &half, NULL);
}

void progress_begin(const char *before, const char *file, const char *behind)
{
    if (!is_able(STDERR_FILENO) || width_of(STDERR_FILENO) < LEAST_COLUMNS)
        return;
    /* Two columns are for the sign of life, and one for the cursor behind it. */
    size_t room = columns_of(STDERR_FILENO) - 3 - strlen(before);
    bool wide = strlen(behind) + 10 <= room;
    struct text line = TEXT_EMPTY;
    text_format(&line, "\r%s", before);
    put_end(file, strlen(file), wide ? room - strlen(behind) : room, &line);
    text_put(&line, wide ? behind : "");
    in_progress = stream_write(stderr, text_string(&line), line.len);
    text_free(&line);
    if (in_progress)
        set_timer(true);
}

void progress_end(void)
{
    if (!in_progress)
        return;
    set_timer(false);
    in_progress = false;
    stream_write(stderr, "\r\033[K", 4);
}
