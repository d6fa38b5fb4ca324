#include "commands/options.h"

/* Lines of at most 80 columns. */

const char help_all[] =
    "yinqocha - the day planner of a test bay\n"
    "\n"
    "  yinqocha plan    DAY...                  plan days within their targets\n"
    "  yinqocha best    DAY...                  find the best targets of days\n"
    "  yinqocha check   DAY --list FILE         check a plan from elsewhere\n"
    "  yinqocha check   DAY --set BENCHES       check a blocking set\n"
    "  yinqocha check   DAY --page FILE         check a page of blocking sets\n"
    "  yinqocha compare DAY FIRST SECOND        tell whether two plans are the same\n"
    "  yinqocha sheet   DAY -o FILE             write a day as a sheet\n"
    "  yinqocha show    DAY                     show a day or a sheet as text\n"
    "\n"
    "DAY is a day as text, a sheet, or - for standard input. A day has a line for\n"
    "each thing; a # begins a comment:\n"
    "\n"
    "  benches North, South, West      or a number of benches, such as 3\n"
    "  share 4/7\n"
    "  target 480\n"
    "  booked North 60\n"
    "  job \"Axle 12\" 95 North,South    name, minutes, benches (0,2,5-7 or all too)\n"
    "  jobs friday.csv                 the jobs of a CSV file, in columns name,\n"
    "                                  minutes and benches\n"
    "\n"
    "`yinqocha help CMD` and `yinqocha CMD --help` say more, `yinqocha --version`\n"
    "tells the version.\n"
    "\n"
    "Exit status: 0 a plan, passed, the same, written, shown; 1 no plan, not passed,\n"
    "different; 2 bad input, or a file that cannot be read or written; 3 a wrong\n"
    "command line. Of several days the highest.\n";

#define FORMS \
    "  --json        one object a day, each on one line\n" \
    "  --csv         a table\n" \
    "  --lines       lines of numbers, as the programs bay, best and show print\n" \
    "                them\n"

const char help_plan[] =
    "yinqocha plan [--json | --csv | --lines] [--html FILE] DAY...\n"
    "\n"
    "Plans each day within its target, and shows by bench which jobs it has. Every\n"
    "load of a plan is within the bound, (5/3 + p/(3q)) times the target for the\n"
    "share p/q. Where there is no plan it says why no assignment keeps every bench\n"
    "within the target. Several days have a table at the end, a line a day.\n"
    "\n"
    FORMS
    "  --html FILE   writes a page with pictures besides, a sheet of paper a day\n"
    "\n"
    "Example:\n"
    "  yinqocha plan --html friday.html friday.day\n"
    "\n"
    "Exit status: 0 a plan, 1 none or a job longer than the target, 2 bad input.\n";

const char help_best[] =
    "yinqocha best [--json | --csv | --lines] [--html FILE] DAY...\n"
    "\n"
    "Finds the best target of each day and shows the plan for it. The target one\n"
    "below is refused, so no assignment has all its loads below the best target. The\n"
    "day's own target is not looked at and need not be there.\n"
    "\n"
    FORMS
    "  --html FILE   writes a page with pictures besides, a sheet of paper a day\n"
    "\n"
    "Example:\n"
    "  yinqocha best friday.day saturday.day\n"
    "\n"
    "Exit status: 0 found, 2 bad input.\n";

const char help_check[] =
    "yinqocha check [--json | --csv | --lines] DAY --list FILE\n"
    "yinqocha check [--json | --csv | --lines] DAY --set BENCHES\n"
    "yinqocha check [--json | --csv | --lines] DAY --page FILE\n"
    "\n"
    "Checks what comes from elsewhere against the day and its target. A list of\n"
    "places passes if each job is on one of its benches and every load is within the\n"
    "bound. A set of benches passes if it is blocking: what must lie there is more\n"
    "than the target leaves, so no assignment keeps every bench within it. A page of\n"
    "sets passes if each is blocking and no two share a bench.\n"
    "\n"
    "  --list FILE   what `plan --csv` or `plan --lines` prints, or a table with\n"
    "                the columns bench, and job or name\n"
    "  --set BENCHES benches by number or name, such as 0,2,5-7\n"
    "  --page FILE   a set a line\n"
    FORMS
    "\n"
    "Example:\n"
    "  yinqocha plan --csv friday.day >friday.csv\n"
    "  yinqocha check friday.day --list friday.csv\n"
    "\n"
    "Exit status: 0 passed, 1 not passed, 2 bad input.\n";

const char help_compare[] =
    "yinqocha compare [--json | --csv | --lines] DAY FIRST SECOND\n"
    "\n"
    "Tells whether two plans of a day are the same: every job is on the same bench.\n"
    "FIRST and SECOND are lists of places, as `plan --csv` or `plan --lines` prints\n"
    "them. Where they differ it shows which jobs are elsewhere.\n"
    "\n"
    FORMS
    "\n"
    "Example:\n"
    "  yinqocha compare friday.day ours.csv theirs.csv\n"
    "\n"
    "Exit status: 0 the same, 1 different, 2 bad input or a list that is no\n"
    "assignment.\n";

const char help_sheet[] =
    "yinqocha sheet [-o FILE] DAY\n"
    "\n"
    "Writes the day as a sheet, the bytes that the library and the programs bay, best\n"
    "and show read. Names and comments are not in it.\n"
    "\n"
    "  -o FILE, --output FILE\n"
    "                the file to write; otherwise standard output, if that is no\n"
    "                terminal\n"
    "\n"
    "Example:\n"
    "  yinqocha sheet -o friday.sheet friday.day\n"
    "\n"
    "Exit status: 0 written, 2 bad input or a file that cannot be written.\n";

const char help_show[] =
    "yinqocha show [--json | --csv | --lines] DAY\n"
    "\n"
    "Shows what a day or a sheet holds, as the text of a day that can be edited and\n"
    "planned again. With --csv it is the jobs alone, as a jobs line reads them.\n"
    "\n"
    FORMS
    "\n"
    "Example:\n"
    "  yinqocha show friday.sheet >friday.day\n"
    "\n"
    "Exit status: 0 shown, 2 bad input.\n";
