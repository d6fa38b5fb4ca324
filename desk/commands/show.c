#include "commands/output.h"

#include "day/read.h"
#include "day/write.h"

static bool print(const struct options *options, const struct day *day)
{
    struct text text = TEXT_EMPTY;
    switch (options->form) {
    case FORM_TEXT:
        day_render(day, &text);
        break;
    case FORM_JSON:
        json_day(day, &text);
        break;
    case FORM_CSV:
        csv_day(day, &text);
        break;
    case FORM_LINES:
        lines_day(day, &text);
        break;
    }
    return output_write(&text);
}

int command_show(const struct options *options)
{
    struct day *day = day_new();
    struct messages messages = MESSAGES_NONE;
    int status = STATUS_GOOD;
    if (day_read(options->files[0], DAY_WHOLE, day, &messages) != DAY_READ)
        status = output_bad_input(options, day->file_names[0], &messages);
    else if (!print(options, day))
        status = STATUS_BAD;
    messages_free(&messages);
    day_free(day);
    return status;
}
