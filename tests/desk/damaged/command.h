/*
 * command.h - damaged days and sheets through the whole command, `yinqocha plan`
 */

#ifndef DAMAGED_COMMAND_H
#define DAMAGED_COMMAND_H

#include "commands/commands.h"
#include "damaged/days.h"

#include <fcntl.h>
#include <unistd.h>

/* Has a stream go to a file; the stream's own file descriptor as it was, for `give_back`. */
static int send_to(FILE *stream, const char *path)
{
    fflush(stream);
    int kept = dup(fileno(stream));
    int file = open(path, O_WRONLY | O_CREAT | O_TRUNC, 0600);
    if (kept < 0 || file < 0 || dup2(file, fileno(stream)) < 0) {
        fputs("damaged: FAILED, a stream cannot be sent to a file\n", stderr);
        exit(EXIT_FAILURE);
    }
    close(file);
    return kept;
}

static void give_back(FILE *stream, int kept)
{
    fflush(stream);
    dup2(kept, fileno(stream));
    close(kept);
}

/* What a command said, and its exit status. */
static int say(char *form, char *path, struct text *out, struct text *err)
{
    char name[] = "yinqocha", plan[] = "plan";
    char *arguments[] = { name, plan, form, path, NULL };
    char *out_path = scratch("out"), *err_path = scratch("err");
    int kept_out = send_to(stdout, out_path), kept_err = send_to(stderr, err_path);
    int status = desk_main(4, arguments);
    give_back(stdout, kept_out);
    give_back(stderr, kept_err);
    require(file_read(out_path, SIZE_MAX / 8, out) == FILE_READ &&
                file_read(err_path, SIZE_MAX / 8, err) == FILE_READ,
            "what a command said is read");
    free(out_path);
    free(err_path);
    return status;
}

/* Whether the answer that was printed is one of those with the exit status. */
static bool is_answer_of(int status, bool as_json, const struct text *out)
{
    static const char *const json[3][2] = {
        { "\"answer\":\"plan\"", "\"answer\":\"plan\"" },
        { "\"answer\":\"long\"", "\"answer\":\"none\"" },
        { "\"answer\":\"fault\"", "\"answer\":\"error\"" },
    };
    static const char *const lines[3][2] = {
        { "plan ", "plan " },
        { "long ", "none " },
        { "fault ", "error\n" },
    };
    const char *said = text_string(out);
    for (int n = 0; n < 2; n++) {
        const char *word = as_json ? json[status][n] : lines[status][n];
        if (as_json ? strstr(said, word) != NULL : strncmp(said, word, strlen(word)) == 0)
            return true;
    }
    return false;
}

static void try_command(struct draws *draws)
{
    static char json[] = "--json", lines[] = "--lines";
    bool sheet = draw(draws, 3) == 0, as_json = draw(draws, 2) == 0;
    start("a command", &any_day(sheet ? &sheets : &days, draws)->bytes);
    if (sheet)
        damage_sheet(draws);
    else
        damage(&tried.bytes, draws);
    char *path = scratch(sheet ? "damaged.sheet" : "damaged.day");
    require(file_write(path, tried.bytes.bytes, tried.bytes.len), "a scratch file is written");
    struct text out = TEXT_EMPTY, err = TEXT_EMPTY, names = TEXT_EMPTY;
    int status = say(as_json ? json : lines, path, &out, &err);
    require(status >= 0 && status <= 2, "an exit status of 0, 1 or 2");
    met[COMMANDS_GOOD + status]++;
    require((err.len > 0) == (status == 2), "messages on standard error exactly with status 2");
    require(utf8_strict(err.bytes, err.len), "standard error is fit for a terminal");
    require(!as_json || json_strict(&out, &names), "JSON of a command on one line");
    require(is_answer_of(status, as_json, &out), "the exit status is that of the answer");
    text_free(&out);
    text_free(&err);
    text_free(&names);
    free(path);
}

#endif
