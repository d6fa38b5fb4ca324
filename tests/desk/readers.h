/*
 * The cases of readers.c that are text: inputs, with what must come of them.
 */

#ifndef READERS_H
#define READERS_H

/* An input, and what it stands for or all that is said of it. */
struct day_case {
    const char *what, *input, *expected;
};

#define HEAD "benches 3\nshare 4/7\ntarget 480\n"
#define HEAD_IS "3 benches, 4/7, 480\n"
#define NAMED "benches North, South rig, \"Rig #3\"\nshare 4/7\ntarget 480\n"
#define NAMED_IS HEAD_IS "0 [North] 0\n1 [South rig] 0\n2 [Rig #3] 0\n"

/* The day to which tables of jobs, lists and pages belong. */
#define BAY "benches North, South rig, \"Rig, 3\"\nshare 4/7\ntarget 480\njob first 40 0\n"
#define BAY_IS HEAD_IS "0 [North] 0\n1 [South rig] 0\n2 [Rig, 3] 0\n[first] 40 on 0\n"

static const struct day_case good_days[] = {
    { "nothing but the head", HEAD, HEAD_IS },
    { "items in another order, blank lines, tabs, no last line end",
      "\n\ttarget\t480 \n  share 4/7\n\n# jobs later\nbenches 3\t# three\njob a 5 0",
      HEAD_IS "[a] 5 on 0\n" },
    { "line ends of CR LF and a byte order mark",
      "\xEF\xBB\xBF" "benches 3\r\nshare 4/7\r\ntarget 480\r\n\r\njob a 5 0,2\r\n",
      HEAD_IS "[a] 5 on 0 2\n" },
    { "the last line ends in CR", HEAD "job a 5 2\r", HEAD_IS "[a] 5 on 2\n" },
    { "names of benches stand for their numbers in order",
      NAMED "job a 1 North\njob b 2 South rig\njob c 3 \"Rig #3\"\n",
      NAMED_IS "[a] 1 on 0\n[b] 2 on 1\n[c] 3 on 2\n" },
    { "blanks around the / of the share", "benches 3\nshare 4 /\t7 # x\ntarget 480\n", HEAD_IS },
    { "leading zeros",
      "benches 003\nshare 004/0007\ntarget 0480\njob a 00000000000000000000005 002\n",
      HEAD_IS "[a] 5 on 2\n" },
    { "the largest numbers",
      "benches 64\nshare 126/127\ntarget 1073741823\nbooked 63 1048575\njob a 1048575 62-63\n",
      "64 benches, 126/127, 1073741823\n63 [] 1048575\n[a] 1048575 on 62 63\n" },
    { "the smallest numbers", "benches 1\nshare 4/7\ntarget 0\nbooked 0 0\njob a 0 0\n",
      "1 benches, 4/7, 0\n[a] 0 on 0\n" },
    { "lists, ranges and all",
      "benches 9\nshare 4/7\ntarget 480\njob a 1 0,2,5-7\njob b 1 all\njob c 1 8 , 3 - 4,8,3\n"
      "job d 1 All\njob e 9 6-6\n",
      "9 benches, 4/7, 480\n[a] 1 on 0 2 5 6 7\n[b] 1 on 0 1 2 3 4 5 6 7 8\n[c] 1 on 3 4 8\n"
      "[d] 1 on 0 1 2 3 4 5 6 7 8\n[e] 9 on 6\n" },
    { "benches by name, by number and both",
      NAMED "booked \"South rig\" 60\nbooked 2 7\nbooked North 1\njob a 5 South rig\n"
            "job b 5 \"Rig #3\", North # both\njob c 2 \"South rig\" ,0-1\n",
      HEAD_IS "0 [North] 1\n1 [South rig] 60\n2 [Rig #3] 7\n"
              "[a] 5 on 1\n[b] 5 on 0 2\n[c] 2 on 0 1\n" },
    { "a comment behind a job leaves the job",
      HEAD "job a 5 0 # first\njob b 6 1# second\njob c 7 2 ## \"third\n",
      HEAD_IS "[a] 5 on 0\n[b] 6 on 1\n[c] 7 on 2\n" },
    { "a # in quotes is no comment", HEAD "job \"a # b\" 5 0\n", HEAD_IS "[a # b] 5 on 0\n" },
    { "quotes",
      HEAD "job \"Axle 12, front\" 5 0\njob \"the \"\"big\"\" one\" 6 0\njob \"\"\"\" 7 0\n",
      HEAD_IS "[Axle 12, front] 5 on 0\n[the \"big\" one] 6 on 0\n[\"] 7 on 0\n" },
    { "jobs may be called by numbers and what else means benches",
      HEAD "job a,b 5 0\njob 7 5 0\njob all 5 0\njob 5-7 5 0\n",
      HEAD_IS "[a,b] 5 on 0\n[7] 5 on 0\n[all] 5 on 0\n[5-7] 5 on 0\n" },
    { "names in UTF-8: combining, wide, joined",
      "benches Pr\xC3\xBC" "fstand, \xE6\xB8\xAC\xE8\xA9\xA6\nshare 4/7\ntarget 480\n"
      "job e\xCC\x81 5 \xE6\xB8\xAC\xE8\xA9\xA6\n"
      "job \xF0\x9F\x91\xA8\xE2\x80\x8D\xF0\x9F\x94\xA7 5 0\n",
      "2 benches, 4/7, 480\n0 [Pr\xC3\xBC" "fstand] 0\n1 [\xE6\xB8\xAC\xE8\xA9\xA6] 0\n"
      "[e\xCC\x81] 5 on 1\n[\xF0\x9F\x91\xA8\xE2\x80\x8D\xF0\x9F\x94\xA7] 5 on 0\n" },
    { "an only bench with a name", "benches North\nshare 4/7\ntarget 480\njob a 5 North\n",
      "1 benches, 4/7, 480\n0 [North] 0\n[a] 5 on 0\n" },
    { "an only bench whose name begins like a number",
      "benches \"6 rigs\"\nshare 4/7\ntarget 480\njob a 5 6 rigs\n",
      "1 benches, 4/7, 480\n0 [6 rigs] 0\n[a] 5 on 0\n" },
    { "the same without a blank", "benches \"6rigs\"\nshare 4/7\ntarget 480\njob a 5 6rigs\n",
      "1 benches, 4/7, 480\n0 [6rigs] 0\n[a] 5 on 0\n" },
    { "names that have one FNV-1a hash are two names", HEAD "job costarring 5 0\njob liquid 6 1\n",
      HEAD_IS "[costarring] 5 on 0\n[liquid] 6 on 1\n" },
    { "names of benches that begin like numbers", "benches 1e3, 5x, -5\nshare 4/7\ntarget 480\n",
      "3 benches, 4/7, 480\n0 [1e3] 0\n1 [5x] 0\n2 [-5] 0\n" },
    { "names of benches with commas and quotes",
      "benches \"a, b\", \"c \"\"d\"\"\"\nshare 4/7\ntarget 480\njob x 5 \"c \"\"d\"\"\"\n"
      "booked \"a, b\" 3\n",
      "2 benches, 4/7, 480\n0 [a, b] 3\n1 [c \"d\"] 0\n[x] 5 on 1\n" },
    { "a job as long as the share of the longest, on three benches",
      HEAD "job a 7 0\njob b 4 all\n", HEAD_IS "[a] 7 on 0\n[b] 4 on 0 1 2\n" },
};

/* Days whose text is wrong, with all that is said of it. */
static const struct day_case bad_days[] = {
    { "an empty file", "",
      "friday.day: the day has no line \"benches\": expected one such as: benches 6\n"
      "friday.day: the day has no line \"share\": expected one such as: share 4/7\n"
      "friday.day: the day has no line \"target\": expected one such as: target 480\n" },
    { "nothing but comments", "# a\n\n  # b\n",
      "friday.day: the day has no line \"benches\": expected one such as: benches 6\n"
      "friday.day: the day has no line \"share\": expected one such as: share 4/7\n"
      "friday.day: the day has no line \"target\": expected one such as: target 480\n" },
    { "without benches, with a job",
      "share 4/7\ntarget 480\njob a 5 0,99\njob b x 0\nbooked 0 60\n",
      "friday.day:4:7: \"x\" is no number of minutes: expected a whole number from 0 to "
      "1048575\n"
      "friday.day: the day has no line \"benches\": expected one such as: benches 6 (without "
      "it the benches of bookings and jobs cannot be told)\n" },
    { "unknown first words",
      "bench 3\nbenches 3\nshare 4/7\ntarget 480\nJob a 5 0\n3 benches\n\"job\" a 5 0\n",
      "friday.day:1:1: \"bench\" is not known here: expected a line that begins with benches, "
      "share, target, booked, job or jobs\n"
      "friday.day:5:1: \"Job\" is not known here: expected a line that begins with benches, "
      "share, target, booked, job or jobs\n"
      "friday.day:6:1: \"3\" is not known here: expected a line that begins with benches, "
      "share, target, booked, job or jobs\n"
      "friday.day:7:1: \"\"job\"\" is not known here: expected a line that begins with "
      "benches, share, target, booked, job or jobs\n" },
    { "items that stand twice", HEAD "benches 4\nshare 5/7\ntarget 9\n",
      "friday.day:4:1: \"benches\" stands here a second time: the first is on line 1\n"
      "friday.day:5:1: \"share\" stands here a second time: the first is on line 2\n"
      "friday.day:6:1: \"target\" stands here a second time: the first is on line 3\n" },
    { "benches below a job", "share 4/7\ntarget 480\njob a 5 9\nbooked 9 9\nbenches 3\njob b 5 9\n",
      "friday.day:5:1: \"benches\" stands before all bookings and jobs, of which the first is "
      "on line 3: benches above this line were not looked at\n"
      "friday.day:6:9: there is no bench 9: the benches are 0 to 2\n" },
    { "numbers of benches", "benches 0\nshare 4/7\ntarget 480\n",
      "friday.day:1:9: \"0\" is no number of benches: expected a whole number from 1 to 64, "
      "or names with commas between them (one that begins like a number in quotes)\n" },
    { "65 benches", "benches 65\nshare 4/7\ntarget 480\n",
      "friday.day:1:9: \"65\" is no number of benches: expected a whole number from 1 to 64, "
      "or names with commas between them (one that begins like a number in quotes)\n" },
    { "1e3 benches", "benches 1e3\nshare 4/7\ntarget 480\n",
      "friday.day:1:9: \"1e3\" is no number of benches: expected a whole number from 1 to 64, "
      "or names with commas between them (one that begins like a number in quotes)\n" },
    { "-5 benches", "benches -5\nshare 4/7\ntarget 480\n",
      "friday.day:1:9: \"-5\" is no number of benches: expected a whole number from 1 to 64, "
      "or names with commas between them (one that begins like a number in quotes)\n" },
    { "2^64 + 3 benches", "benches 18446744073709551619\nshare 4/7\ntarget 480\n",
      "friday.day:1:9: \"18446744073709551619\" is no number of benches: expected a whole "
      "number from 1 to 64, or names with commas between them (one that begins like a number "
      "in quotes)\n" },
    { "a word too many behind the number of benches", "benches 3 rigs\nshare 4/7\ntarget 480\n",
      "friday.day:1:9: \"3 rigs\" is no number of benches: expected a whole number from 1 to "
      "64, or names with commas between them (one that begins like a number in quotes)\n" },
    { "no number of benches", "benches # 3\nshare 4/7\ntarget 480\n",
      "friday.day:1:9: the benches are missing: expected their number, such as: benches 6, or "
      "names with commas between them\n" },
    { "names of benches",
      "benches North, North, all, ALL, 5, 5-7, 5 - 7, , \" x\", \"\", \"y\", \"z\nshare 4/7\n"
      "target 480\njob a 5 North\n",
      "friday.day:1:65: the quote that begins here is not closed: expected another \" before "
      "the end of the line\n"
      "friday.day:4:9: from here on benches cannot be told, for line 1 has none that could be "
      "read\n" },
    { "names of benches, without the open quote",
      "benches North, North, all, ALL, 5, \"5-7\", 5 - 7, , \" x\", \"\", z,\nshare 4/7\n"
      "target 480\njob a 5 North\njob b 1e3 North\n",
      "friday.day:1:16: \"North\" is the name of another bench: names differ, and bench 0 on "
      "this line has it\n"
      "friday.day:1:23: \"all\" is no name for a bench: a number, a range of numbers or all "
      "means benches in a list\n"
      "friday.day:1:28: \"ALL\" is no name for a bench: a number, a range of numbers or all "
      "means benches in a list\n"
      "friday.day:1:33: \"5\" is no name for a bench: a number, a range of numbers or all "
      "means benches in a list\n"
      "friday.day:1:37: \"5-7\" is no name for a bench: a number, a range of numbers or all "
      "means benches in a list\n"
      "friday.day:1:43: \"5 - 7\" is no name for a bench: a number, a range of numbers or all "
      "means benches in a list\n"
      "friday.day:1:50: the name of a bench is missing here: expected one between commas, and "
      "none at the end\n"
      "friday.day:1:53: \" x\" has a blank at an end: expected a name without one\n"
      "friday.day:1:59: the name of the bench is missing: expected one of 1 to 255 bytes\n"
      "friday.day:1:64: the name of a bench is missing here: expected one between commas, and "
      "none at the end\n"
      "friday.day:4:9: from here on benches cannot be told, for line 1 has none that could be "
      "read\n"
      "friday.day:5:7: \"1e3\" is no number of minutes: expected a whole number from 0 to "
      "1048575\n" },
    { "quotes in names of benches",
      "benches a\"b, \"c\"d, \"e\" \"f\", g \"h,i\"\nshare 4/7\ntarget 480\n",
      "friday.day:1:35: the quote that begins here is not closed: expected another \" before "
      "the end of the line\n" },
    { "bad shares", "benches 3\nshare 4:7\ntarget 480\n",
      "friday.day:2:7: \"4:7\" is no share: expected two whole numbers with a / between them, "
      "such as 4/7\n" },
    { "a share without a number", "benches 3\nshare 4/\ntarget 480\n",
      "friday.day:2:7: \"4/\" is no share: expected two whole numbers with a / between them, "
      "such as 4/7\n" },
    { "a share of three numbers", "benches 3\nshare 4/7/9\ntarget 480\n",
      "friday.day:2:7: \"4/7/9\" is no share: expected two whole numbers with a / between "
      "them, such as 4/7\n" },
    { "a share above 127", "benches 3\nshare 100/128\ntarget 480\n",
      "friday.day:2:7: \"100/128\" has too large a number: each number of a share is at most "
      "127\n" },
    { "a share as a decimal", "benches 3\nshare 0.6\ntarget 480\n",
      "friday.day:2:7: \"0.6\" is no share: expected two whole numbers with a / between them, "
      "such as 4/7\n" },
    { "a negative share", "benches 3\nshare -4/7\ntarget 480\n",
      "friday.day:2:7: \"-4/7\" is no share: expected two whole numbers with a / between "
      "them, such as 4/7\n" },
    { "no share on its line", "benches 3\nshare\ntarget 480\n",
      "friday.day:2:6: the share is missing: expected a line such as: share 4/7\n" },
    { "a word too many behind the share", "benches 3\nshare 4/7 of it\ntarget 480\n",
      "friday.day:2:7: \"4/7 of it\" is no share: expected two whole numbers with a / between "
      "them, such as 4/7\n" },
    { "a bad share beside other errors", "benches 3\nshare 1/2\ntarget 480\njob a 1e3 0\n",
      "friday.day:2:7: 1/2 is no good share: expected at least 4/7 and less than 1\n"
      "friday.day:4:7: \"1e3\" is no number of minutes: expected a whole number from 0 to "
      "1048575\n" },
    { "targets", "benches 3\nshare 4/7\ntarget 1073741824\n",
      "friday.day:3:8: \"1073741824\" is too large for minutes: expected a whole number from "
      "0 to 1073741823\n" },
    { "a target in words", "benches 3\nshare 4/7\ntarget 480 minutes\n",
      "friday.day:3:12: \"minutes\" is too much here: expected a line such as: target 480 "
      "(what has a blank in it stands in double quotes)\n" },
    { "no target on its line", "benches 3\nshare 4/7\ntarget\n",
      "friday.day:3:7: the target in minutes is missing: expected a line such as: target 480\n" },
    { "a target in quotes", "benches 3\nshare 4/7\ntarget \"480\"\n",
      "friday.day:3:9: \"480\" is in quotes and so no number of minutes: expected a whole "
      "number from 0 to 1073741823\n" },
    { "bookings",
      HEAD "booked\nbooked 0\nbooked 3 5\nbooked 0-1 5\nbooked 0 1e3\nbooked 0 1048576\n"
      "booked x 5\nbooked 0 5 6\nbooked all 5\nbooked 0,1 5\n",
      "friday.day:4:7: the bench and its minutes are missing: expected a line such as: booked "
      "0 60\n"
      "friday.day:5:9: the minutes are missing: expected a line such as: booked 0 60\n"
      "friday.day:6:8: there is no bench 3: the benches are 0 to 2\n"
      "friday.day:7:8: \"0-1\" is more than one bench: expected one by its number or name\n"
      "friday.day:8:10: \"1e3\" is no number of minutes: expected a whole number from 0 to "
      "1048575\n"
      "friday.day:9:10: \"1048576\" is too large for minutes: expected a whole number from 0 "
      "to 1048575\n"
      "friday.day:10:8: \"x\" is no bench: the benches are 0 to 2\n"
      "friday.day:11:12: \"6\" is too much here: expected a line such as: booked 0 60 (what "
      "has a blank in it stands in double quotes)\n"
      "friday.day:12:8: \"all\" is more than one bench: expected one by its number or name\n"
      "friday.day:13:8: \"0,1\" is no bench: the benches are 0 to 2\n" },
    { "a bench that is booked twice", HEAD "booked 0 5\nbooked 1 5\nbooked 0 6\nbooked 00 0\n",
      "friday.day:6:8: this bench is booked a second time: the first is on line 4\n"
      "friday.day:7:8: this bench is booked a second time: the first is on line 4\n" },
    { "a booked bench that nobody named",
      NAMED "booked South 60\nbooked \"South rig\" 1e3\nbooked 3 5\nbooked \"0\" 5\n",
      "friday.day:4:8: no bench is called \"South\": the benches are North, \"South rig\", "
      "\"Rig #3\"\n"
      "friday.day:5:20: \"1e3\" is no number of minutes: expected a whole number from 0 to "
      "1048575\n"
      "friday.day:6:8: there is no bench 3: the benches are 0 to 2\n"
      "friday.day:7:9: no bench is called \"0\" (what is no name stands without quotes): the "
      "benches are 0 to 2\n" },
    { "minutes of jobs",
      HEAD "job a 1e3 0\njob b -5 0\njob c +5 0\njob d 4.5 0\njob e 0x10 0\njob f 1048576 0\n"
      "job g 18446744073709551616 0\njob h 18446744073709551621 0\njob i \"5\" 0\njob j 5, 0\n"
      "job k \xD9\xA3 0\n",
      "friday.day:4:7: \"1e3\" is no number of minutes: expected a whole number from 0 to "
      "1048575\n"
      "friday.day:5:7: \"-5\" is no number of minutes: expected a whole number from 0 to "
      "1048575\n"
      "friday.day:6:7: \"+5\" is no number of minutes: expected a whole number from 0 to "
      "1048575\n"
      "friday.day:7:7: \"4.5\" is no number of minutes: expected a whole number from 0 to "
      "1048575\n"
      "friday.day:8:7: \"0x10\" is no number of minutes: expected a whole number from 0 to "
      "1048575\n"
      "friday.day:9:7: \"1048576\" is too large for minutes: expected a whole number from 0 "
      "to 1048575\n"
      "friday.day:10:7: \"18446744073709551616\" is too large for minutes: expected a whole "
      "number from 0 to 1048575\n"
      "friday.day:11:7: \"18446744073709551621\" is too large for minutes: expected a whole "
      "number from 0 to 1048575\n"
      "friday.day:12:8: \"5\" is in quotes and so no number of minutes: expected a whole "
      "number from 0 to 1048575\n"
      "friday.day:13:7: \"5,\" is no number of minutes: expected a whole number from 0 to "
      "1048575\n"
      "friday.day:14:7: \"\xD9\xA3\" is no number of minutes: expected a whole number from 0 "
      "to 1048575\n" },
    { "parts of jobs that are missing",
      HEAD "job\njob a\njob b 5\njob c 5 # 0\njob \"\" 5 0\njob \" d\" 5 0\n",
      "friday.day:4:4: the name, minutes and benches of the job are missing: expected a line "
      "such as: job \"Axle 12\" 45 0,2,5-7\n"
      "friday.day:5:6: the minutes and benches of the job are missing: expected a line such "
      "as: job \"Axle 12\" 45 0,2,5-7\n"
      "friday.day:6:8: the benches of the job are missing: expected a line such as: job "
      "\"Axle 12\" 45 0,2,5-7\n"
      "friday.day:7:9: the benches of the job are missing: expected a line such as: job "
      "\"Axle 12\" 45 0,2,5-7\n"
      "friday.day:8:6: the name of the job is missing: expected one of 1 to 255 bytes\n"
      "friday.day:9:6: \" d\" has a blank at an end: expected a name without one\n" },
    { "benches of jobs",
      HEAD "job a 5 3\njob b 5 0,3,1-3,2-1,7-5\njob c 5 x\njob d 5 0,,1\njob e 5 0,\n"
      "job f 5 all,0\njob g 5 0 1\njob h 5 \"0\"\njob i 5 -1\njob j 5 0-\n"
      "job k 5 99999999999999999999999\n",
      "friday.day:4:9: there is no bench 3: the benches are 0 to 2\n"
      "friday.day:5:11: there is no bench 3: the benches are 0 to 2\n"
      "friday.day:5:15: there is no bench 3: the benches are 0 to 2\n"
      "friday.day:5:17: \"2-1\" is no range: the lower bench stands first, such as 1-2\n"
      "friday.day:5:21: there is no bench 7: the benches are 0 to 2\n"
      "friday.day:6:9: \"x\" is no bench: the benches are 0 to 2\n"
      "friday.day:7:11: a bench is missing here: expected one between commas, and none at the "
      "end\n"
      "friday.day:8:11: a bench is missing here: expected one between commas, and none at the "
      "end\n"
      "friday.day:9:9: \"all\" stands among other benches: expected it alone, or the others "
      "without it\n"
      "friday.day:10:9: \"0 1\" is no bench: the benches are 0 to 2\n"
      "friday.day:11:10: no bench is called \"0\" (what is no name stands without quotes): "
      "the benches are 0 to 2\n"
      "friday.day:12:9: \"-1\" is no bench: the benches are 0 to 2\n"
      "friday.day:13:9: \"0-\" is no bench: the benches are 0 to 2\n"
      "friday.day:14:9: there is no bench 99999999999999999999999: the benches are 0 to 2\n" },
    { "benches of jobs by names",
      NAMED "job a 5 Nord\njob b 5 South\njob c 5 North South rig\njob d 5 \"Rig #4\", \"all\"\n"
      "job e 5 Rig #3\njob f 5 3\n",
      "friday.day:4:9: no bench is called \"Nord\": the benches are North, \"South rig\", "
      "\"Rig #3\"\n"
      "friday.day:5:9: no bench is called \"South\": the benches are North, \"South rig\", "
      "\"Rig #3\"\n"
      "friday.day:6:9: no bench is called \"North South rig\": the benches are North, \"South "
      "rig\", \"Rig #3\"\n"
      "friday.day:7:10: no bench is called \"Rig #4\": the benches are North, \"South rig\", "
      "\"Rig #3\"\n"
      "friday.day:7:20: no bench is called \"all\" (what is no name stands without quotes): "
      "the benches are 0 to 2\n"
      "friday.day:8:9: no bench is called \"Rig\": the benches are North, \"South rig\", "
      "\"Rig #3\"\n"
      "friday.day:9:9: there is no bench 3: the benches are 0 to 2\n" },
    { "several errors on one line", HEAD "job a 1e3 9\njob a x 0\n",
      "friday.day:4:7: \"1e3\" is no number of minutes: expected a whole number from 0 to "
      "1048575\n"
      "friday.day:4:11: there is no bench 9: the benches are 0 to 2\n"
      "friday.day:5:5: \"a\" is the name of another job: names differ, and the first is on "
      "line 4\n"
      "friday.day:5:7: \"x\" is no number of minutes: expected a whole number from 0 to "
      "1048575\n" },
    { "names of jobs that are not new",
      HEAD "job a 5 0\njob \"b c\" 5 0\njob a 6 1\n\njob \"b c\" 5 0\n",
      "friday.day:6:5: \"a\" is the name of another job: names differ, and the first is on "
      "line 4\n"
      "friday.day:8:6: \"b c\" is the name of another job: names differ, and the first is on "
      "line 5\n" },
    { "quotes out of place",
      HEAD "job a\"b 5 0\njob \"c\"d 5 0\njob \"e 5 0\njob f 5 \"0\njob g\"h\" 5 0\n"
      "job \"i\" 5 0 \"\n",
      "friday.day:4:6: the quote that begins here is not closed: expected another \" before "
      "the end of the line\n"
      "friday.day:5:8: expected a blank behind the closing quote (a quote inside of quotes is "
      "doubled)\n"
      "friday.day:6:5: the quote that begins here is not closed: expected another \" before "
      "the end of the line\n"
      "friday.day:7:9: the quote that begins here is not closed: expected another \" before "
      "the end of the line\n"
      "friday.day:8:5: \"g\"h\"\" has a quote inside: a name with a quote stands in quotes, "
      "with its own doubled\n"
      "friday.day:9:13: the quote that begins here is not closed: expected another \" before "
      "the end of the line\n" },
    { "characters that no text has",
      HEAD "job a\x07 5 0\njob \"\xC3\xA9\xFC\" 5 0\njob b 5 0 # \xFF\njob \xE2\x80\xAE 5 0\n"
      "foo\rbar\njob c\x7F 5 0\n#\xC2\x85\njob \xED\xA0\x80 5 0\njob \xEF\xBB\xBF 5 0\n",
      "friday.day:4:6: the character U+0007 cannot stand here: expected one that can be "
      "printed\n"
      "friday.day:5:7: the byte 0xFC is no UTF-8: expected text that was saved as UTF-8\n"
      "friday.day:6:13: the byte 0xFF is no UTF-8: expected text that was saved as UTF-8\n"
      "friday.day:7:5: the character U+202E cannot stand here: expected one that can be "
      "printed\n"
      "friday.day:8:4: a carriage return by itself cannot stand here: lines end in LF or CR "
      "LF\n"
      "friday.day:9:6: the character U+007F cannot stand here: expected one that can be "
      "printed\n"
      "friday.day:10:2: the character U+0085 cannot stand here: expected one that can be "
      "printed\n"
      "friday.day:11:5: the byte 0xED is no UTF-8: expected text that was saved as UTF-8\n"
      "friday.day:12:5: the character U+FEFF cannot stand here: expected one that can be "
      "printed\n" },
    { "a tab in a name", HEAD "job \"a\tb\" 5 0\n",
      "friday.day:4:7: a tab cannot stand in the name of a job: expected a blank\n" },
    { "columns count characters",
      HEAD "job \xC3\xA9\xC3\xA9 \xC3\xA9 \xC3\xA9,\xC3\xA9\n"
      "job \xE6\xB8\xAC\xE8\xA9\xA6 5 0,9\n",
      "friday.day:4:8: \"\xC3\xA9\" is no number of minutes: expected a whole number from 0 "
      "to 1048575\n"
      "friday.day:4:10: \"\xC3\xA9\" is no bench: the benches are 0 to 2\n"
      "friday.day:4:12: \"\xC3\xA9\" is no bench: the benches are 0 to 2\n"
      "friday.day:5:12: there is no bench 9: the benches are 0 to 2\n" },
    { "files of jobs", HEAD "jobs\njobs nothing.csv\njobs two words.csv\njobs \"no file\"\n",
      "friday.day:4:5: the file of jobs is missing: expected a line such as: jobs monday.csv\n"
      "friday.day:5:6: \"nothing.csv\" cannot be read: No such file or directory\n"
      "friday.day:6:10: \"words.csv\" is too much here: expected a line such as: jobs "
      "monday.csv (what has a blank in it stands in double quotes)\n"
      "friday.day:7:7: \"no file\" cannot be read: No such file or directory\n" },
    { "a comment that has the words of a table", "# job, minutes, benches\nbenches x\n",
      "friday.day: the day has no line \"share\": expected one such as: share 4/7\n"
      "friday.day: the day has no line \"target\": expected one such as: target 480\n" },
    { "a table of jobs for a day", "Name;Minutes;Benches\na;5;0\n",
      "friday.day: this is a table of jobs and not a day: a day is a file of its own, which "
      "has the benches, share and target and names this one in a line such as: jobs "
      "monday.csv\n" },
    { "a table of jobs for a day, with more columns", "\n#,benches,remark,minutes,job\n1,0,x,5,a\n",
      "friday.day: this is a table of jobs and not a day: a day is a file of its own, which "
      "has the benches, share and target and names this one in a line such as: jobs "
      "monday.csv\n" },
};

/* Days that the library refuses. */
static const struct day_case fault_days[] = {
    { "a bad share", "benches 3\nshare 1/2\ntarget 480\njob a 5 0\n",
      "friday.day:2:7: 1/2 is no good share: expected at least 4/7 and less than 1 (fault 8, "
      "place 0)\n" },
    { "a share of 1", "benches 3\nshare  7 / 7\ntarget 480\n",
      "friday.day:2:8: 7/7 is no good share: expected at least 4/7 and less than 1 (fault 8, "
      "place 0)\n" },
    { "a share of 0/0", "benches 3\nshare 0/0\ntarget 480\n",
      "friday.day:2:7: 0/0 is no good share: expected at least 4/7 and less than 1 (fault 8, "
      "place 0)\n" },
    { "jobs that are too long for three benches",
      HEAD "job a 400 0\njob b 300 all\njob c 228 all\njob \"d e\" 229 0-2 # three\n"
      "job f 400 0,1\n",
      "friday.day:5:11: \"b\" has 300 minutes and may go to 3 benches: a job with three or "
      "more has at most 4/7 of the longest job's 400 minutes, that is 228; two benches at "
      "most or a larger share would do (fault 12, place 1)\n"
      "friday.day:7:15: \"d e\" has 229 minutes and may go to 3 benches: a job with three or "
      "more has at most 4/7 of the longest job's 400 minutes, that is 228; two benches at "
      "most or a larger share would do (fault 12, place 3)\n" },
};

/* Tables of jobs behind BAY, with the jobs that are read from them. */
static const struct day_case good_tables[] = {
    { "semicolons", "name;minutes;benches\na;5;0,2\nb;6;all\n", "[a] 5 on 0 2\n[b] 6 on 0 1 2\n" },
    { "commas", "name,minutes,benches\na,5,\"0,2\"\nb,6,all\n", "[a] 5 on 0 2\n[b] 6 on 0 1 2\n" },
    { "tabs", "name\tminutes\tbenches\na\t5\t0,2\nb\t6\t1-2\n", "[a] 5 on 0 2\n[b] 6 on 1 2\n" },
    { "other columns, another order, letters of either case, job for name, blanks around",
      "No.; BENCHES ;Remark;Minutes;JOB\n1; 0 , 2 ;x; 5 ; a b \n2;North;\"y;\nz\";6;c\n",
      "[a b] 5 on 0 2\n[c] 6 on 0\n" },
    { "line ends of CR LF, a byte order mark, no last line end",
      "\xEF\xBB\xBF" "name;minutes;benches\r\na;5;0\r\nb;6;1", "[a] 5 on 0\n[b] 6 on 1\n" },
    { "line ends of CR", "name;minutes;benches\ra;5;0\rb;6;1\r", "[a] 5 on 0\n[b] 6 on 1\n" },
    { "separators in quotes", "name;minutes;benches\n\"a;b\";5;0\n\"c;d;e\";\"6\";\"1\"\n",
      "[a;b] 5 on 0\n[c;d;e] 6 on 1\n" },
    { "a separator in the quotes of a list", "name,minutes,benches\n\"a,b\",5,\"0,2\"\n",
      "[a,b] 5 on 0 2\n" },
    { "quotes in quotes",
      "name,minutes,benches\n\"a \"\"b\"\", c\",5,\"North,\"\"Rig, 3\"\"\"\n\"\"\"\",6,0\n",
      "[a \"b\", c] 5 on 0 2\n[\"] 6 on 0\n" },
    { "blanks around quotes", "name; minutes; benches\n \"a;b\" ; 5 ;\t\"0, 1\"\n",
      "[a;b] 5 on 0 1\n" },
    { "rows without anything, cells without anything behind the columns",
      "\n;;\nname;minutes;benches;remark\n\n ; ;\t;\n\"\";;\na;5;0\nb;5;1;;;\n",
      "[a] 5 on 0\n[b] 5 on 1\n" },
    { "names in UTF-8",
      "name;minutes;benches\nPr\xC3\xBC" "fung;5;0\ne\xCC\x81;6;0\n\xE6\xB8\xAC\xE8\xA9\xA6;7;0\n",
      "[Pr\xC3\xBC" "fung] 5 on 0\n[e\xCC\x81] 6 on 0\n[\xE6\xB8\xAC\xE8\xA9\xA6] 7 on 0\n" },
    { "a # begins no comment", "name;minutes;benches\n#1;5;0\na # b;6;0\n",
      "[#1] 5 on 0\n[a # b] 6 on 0\n" },
    { "a column name before a column job", "job,name,minutes,benches\n7,a,5,0\n", "[a] 5 on 0\n" },
    { "no rows", "name;minutes;benches\n", "" },
};

/* Tables of jobs that are wrong. */
static const struct day_case bad_tables[] = {
    { "an empty table", "",
      "monday.csv: the file is empty: expected a header row with the columns name, minutes "
      "and benches\n" },
    { "nothing but line ends", "\r\n\n\r",
      "monday.csv: the file is empty: expected a header row with the columns name, minutes "
      "and benches\n" },
    { "no header row", "a;5;0\nb;6;1\n",
      "monday.csv:1: the header row lacks name, minutes, benches: expected the columns name "
      "(or job), minutes and benches, with ; or , or tabs between them\n" },
    { "columns that are missing", "name;minuten;benches\na;5;0\n",
      "monday.csv:1: the header row lacks minutes: expected the columns name (or job), "
      "minutes and benches, with ; or , or tabs between them\n" },
    { "two columns of a name", "name;minutes;benches;Minutes\na;5;0;6\n",
      "monday.csv:1:22: the column \"minutes\" stands here a second time: expected it once\n" },
    { "minutes in a table",
      "name;minutes;benches\na;1e3;0\nb;-5;0\nc;5.0;0\nd;;0\ne;1048576;0\n"
      "f;18446744073709551621;0\ng;\"5 \"\"\";0\n",
      "monday.csv:2:3: \"1e3\" is no number of minutes: expected a whole number from 0 to "
      "1048575\n"
      "monday.csv:3:3: \"-5\" is no number of minutes: expected a whole number from 0 to "
      "1048575\n"
      "monday.csv:4:3: \"5.0\" is no number of minutes: expected a whole number from 0 to "
      "1048575\n"
      "monday.csv:5:3: the minutes are missing: expected a whole number from 0 to 1048575\n"
      "monday.csv:6:3: \"1048576\" is too large for minutes: expected a whole number from 0 "
      "to 1048575\n"
      "monday.csv:7:3: \"18446744073709551621\" is too large for minutes: expected a whole "
      "number from 0 to 1048575\n"
      "monday.csv:8:4: \"5 \"\" is no number of minutes: expected a whole number from 0 to "
      "1048575\n" },
    { "benches in a table",
      "name;minutes;benches\na;5;9\nb;5;\nc;5;Nord\nd;5;\"0,\n1\"\ne;5;\"0;1\"\n",
      "monday.csv:2:5: there is no bench 9: the benches are 0 to 2\n"
      "monday.csv:3:5: the benches are missing: expected a list such as 0,2,5-7, or all\n"
      "monday.csv:4:5: no bench is called \"Nord\": the benches are North, \"South rig\", "
      "\"Rig, 3\"\n"
      "monday.csv:5:8: no bench is called \"?1\": the benches are North, \"South rig\", "
      "\"Rig, 3\"\n"
      "monday.csv:7:6: no bench is called \"0;1\": the benches are North, \"South rig\", "
      "\"Rig, 3\"\n" },
    { "names in a table",
      "name;minutes;benches\n;5;0\n\"a\nb\";5;0\nfirst;5;0\n\"c\td\";5;0\ne;5;0\nf;5;0\ne;5;0\n"
      "\xFC;5;0\n",
      "monday.csv:2:1: the name of the job is missing: expected one of 1 to 255 bytes\n"
      "monday.csv:3:3: a line end cannot stand in the name of a job: expected a blank\n"
      "monday.csv:5:1: \"first\" is the name of another job: names differ, and the first is "
      "on line 4 of friday.day\n"
      "monday.csv:6:3: a tab cannot stand in the name of a job: expected a blank\n"
      "monday.csv:9:1: \"e\" is the name of another job: names differ, and the first is on "
      "line 7\n"
      "monday.csv:10:1: the byte 0xFC is no UTF-8: expected text that was saved as UTF-8\n" },
    { "a list of benches without its quotes", "name,minutes,benches\na,5,0,2\nb,5,0,\n",
      "monday.csv:2:7: the row has more cells than the header row, which has 3: a list of "
      "benches with the separator in it stands in quotes\n" },
    { "the same where the header row ends in separators",
      "name,minutes,benches,,\na,5,0,2,\nb,5,0,,\n",
      "monday.csv:2:7: the row has more cells than the header row, which has 3: a list of "
      "benches with the separator in it stands in quotes\n" },
    { "short rows", "name;minutes;benches\na;5\nb\n",
      "monday.csv:2: the row ends before its column benches\n"
      "monday.csv:3: the row ends before its column minutes\n" },
    { "quotes out of place in a table",
      "name;minutes;benches\na\"b;5;0\n\"c\"d;5;0\ne;5;\"0\nf;5;0\n",
      "monday.csv:2:1: \"a\"b\" has a quote inside: a cell with a quote stands in quotes, "
      "with its own doubled\n"
      "monday.csv:3:4: expected the end of the cell behind its closing quote (a quote inside "
      "of quotes is doubled)\n"
      "monday.csv:4:5: the quote that begins here is not closed: expected another \" at the "
      "end of the cell\n" },
    { "a place behind a cell of several lines",
      "name;remark;minutes;benches\na;\"x\r\ny\xC3\xA9\";1e3;0\n",
      "monday.csv:3:5: \"1e3\" is no number of minutes: expected a whole number from 0 to "
      "1048575\n" },
};

/* Lists of places for BAY with a job more, with their entries. */
static const struct day_case good_lists[] = {
    { "lines", "0 1\n1 0\n", "1 0" },
    { "lines of plan", "plan 9 0 0\n0 1\n\n# x\n1 \"Rig, 3\" # y\n", "1 2" },
    { "lines of best", "best 9 3\nplan 9 0 0\r\n1 South rig\r\n0 North\r\n", "0 1" },
    { "lines behind a comment with the words of a table", "# job, bench\n0 1\n1 0\n", "1 0" },
    { "no lines", "", "" },
    { "plan alone", "plan 0 0 0\n", "" },
    { "benches that the day lacks", "0 3\n1 64\n2 18446744073709551615\n",
      "3 64 18446744073709551615" },
    { "more jobs than the day has", "0 0\n1 0\n2 0\n3 0\n", "0 0 0 0" },
    { "fewer jobs than the day has", "0 2\n", "2" },
    { "a table with numbers of jobs",
      "day,answer,target,job,name,minutes,bench,bench_name\n"
      "x.day,plan,480,1,\"a, b\",5,2,\"Rig, 3\"\nx.day,plan,480,0,first,40,0,North\n",
      "0 2" },
    { "a table with names of jobs", "Bench;Name\n\"Rig, 3\";first\n0;\"a, b\"\n", "2 0" },
    { "a table of a plan without jobs",
      "day,answer,target,job,name,minutes,bench,bench_name\nx.day,plan,480,,,,,\n", "" },
    { "a table with tabs and CR", "job\tbench\r0\t2\r1\tNorth\r", "2 0" },
};

static const struct day_case bad_lists[] = {
    { "a list of another day, by its names",
      "job,name,bench\n0,\"a, b\",0\n1,first,0\n",
      "paper:2:4: \"a, b\" is not job 0 of this day, which is \"first\": expected a list that was "
      "made for it\n"
      "paper:3:3: \"first\" is not job 1 of this day, which is \"a, b\": expected a list that was "
      "made for it\n" },
    { "a line end in an earlier cell", "note,name,bench\n\"x\ny\",first,Nord\n",
      "paper:3:10: no bench is called \"Nord\": the benches are North, \"South rig\", \"Rig, "
      "3\"\n" },
    { "bad lines",
      "0\nx 0\n-1 0\n512 0\n1e3 0\n0 Nord\n1 0 1\n2 0-1\n3 all\n4 0,1\n\"5\" 0\n"
      "6 18446744073709551616\nplan 1 2 3\n",
      "paper:1:2: the bench is missing: expected its number or its name\n"
      "paper:2:1: \"x\" is no number of a job: expected a whole number from 0 to 511\n"
      "paper:3:1: \"-1\" is no number of a job: expected a whole number from 0 to 511\n"
      "paper:4:1: \"512\" is too large for a job: expected a whole number from 0 to 511\n"
      "paper:5:1: \"1e3\" is no number of a job: expected a whole number from 0 to 511\n"
      "paper:6:3: no bench is called \"Nord\": the benches are North, \"South rig\", \"Rig, "
      "3\"\n"
      "paper:7:3: no bench is called \"0 1\": the benches are North, \"South rig\", \"Rig, "
      "3\"\n"
      "paper:8:3: \"0-1\" is more than one bench: expected one by its number or name\n"
      "paper:9:3: \"all\" is more than one bench: expected one by its number or name\n"
      "paper:10:3: \"0,1\" is more than one bench: expected one by its number or name\n"
      "paper:11:2: \"5\" is in quotes and so no number of a job: expected a whole number from "
      "0 to 511\n"
      "paper:12:3: there is no bench 18446744073709551616: the benches are 0 to 2\n"
      "paper:13:1: \"plan\" is no number of a job: expected a whole number from 0 to 511\n" },
    { "a job that stands twice", "0 1\n1 0\n0 2\n",
      "paper:3:1: job 0 has a place already: the first is on line 1\n" },
    { "a job that is missing", "0 1\n2 0\n",
      "paper: job 1 has no place here, and job 2 has one: expected a place for each job\n" },
    { "jobs that are missing", "9 1\n1 0\n",
      "paper: 8 jobs below job 9 have no place here, of which the first is job 0: expected a "
      "place for each job\n" },
    { "an answer without a plan", "none 3 0 1\n",
      "paper:1:1: \"none\" is no number of a job: expected a whole number from 0 to 511\n" },
    { "a table without jobs", "bench,place\n0,0\n",
      "paper:1: the header row has no column job or name: expected bench, and job or name\n" },
    { "a table without benches", "job;place\n0;0\n",
      "paper:1: the header row has no column bench: expected bench, and job or name\n" },
    { "a table with errors", "job;bench\n0;Nord\nx;0\n1;\n;2\n2;0;\n2;1\n\"3;0\n",
      "paper:2:3: no bench is called \"Nord\": the benches are North, \"South rig\", \"Rig, "
      "3\"\n"
      "paper:3:1: \"x\" is no number of a job: expected a whole number from 0 to 511\n"
      "paper:4:3: the bench is missing: expected its number or its name\n"
      "paper:5:1: the row has a bench and no job: expected a job's number\n"
      "paper:7:1: job 2 has a place already: the first is on line 6\n"
      "paper:8:1: the quote that begins here is not closed: expected another \" at the end of "
      "the cell\n" },
    { "a table with names that are no jobs", "name,bench\nfirst,0\nsecond,0\nfirst,1\n",
      "paper:3:1: \"second\" is no job of this day: expected the name of one\n"
      "paper:4:1: job 0 has a place already: the first is on line 2\n" },
    { "characters", "0 1\x07\n1 \"0\n",
      "paper:1:4: the character U+0007 cannot stand here: expected one that can be printed\n"
      "paper:2:3: the quote that begins here is not closed: expected another \" before the "
      "end of the line\n" },
};

/* Pages of sets for the same day, with their entries; bench 0 is the highest bit. */
static const struct day_case good_pages[] = {
    { "sets", "0\n1,2 # x\n\nNorth, \"Rig, 3\"\nall\n",
      "9223372036854775808 6917529027641081856 11529215046068469760 16140901064495857664" },
    { "lines of none", "none 3 0 1\nnone 0 2\r\n", "13835058055282163712 2305843009213693952" },
    { "no sets", "# none\n", "" },
};

static const struct day_case bad_pages[] = {
    { "bad sets", "3\n0,,1\nNord\nnone 3\nnone 3 x\nnone 3 0 9\nnone\nnone x 0\n2-1\n\"0\n",
      "paper:1:1: there is no bench 3: the benches are 0 to 2\n"
      "paper:2:3: a bench is missing here: expected one between commas, and none at the end\n"
      "paper:3:1: no bench is called \"Nord\": the benches are North, \"South rig\", \"Rig, "
      "3\"\n"
      "paper:4:7: the benches are missing: expected their numbers behind those of the moves\n"
      "paper:5:8: no bench is called \"x\": the benches are North, \"South rig\", \"Rig, 3\"\n"
      "paper:6:10: there is no bench 9: the benches are 0 to 2\n"
      "paper:7:1: no bench is called \"none\": the benches are North, \"South rig\", \"Rig, "
      "3\"\n"
      "paper:8:1: no bench is called \"none x 0\": the benches are North, \"South rig\", "
      "\"Rig, 3\"\n"
      "paper:9:1: \"2-1\" is no range: the lower bench stands first, such as 1-2\n"
      "paper:10:1: the quote that begins here is not closed: expected another \" before the "
      "end of the line\n" },
};

#endif
