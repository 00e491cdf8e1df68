"""Texts and wishes with ward hours that are wrong, and what `tools/schedule` says of them: each error with its line, in a planner's words, and
with the number of request 2.6 that refuses it."""

SETTINGS = "tree 4 m 1 wait 9 patience 60 clients 4\n"
CALENDAR = "calendar wards 3 weeks 2\n"
HEAD = SETTINGS + CALENDAR
# Ward 0 is open all day; ward 1 in the day, and never on day 6; ward 2 in the day from day 0 to 5, and all day on day 6.
OPEN = HEAD + "hours ward 1 06:00 .. 22:00\nhours ward 1 day 6 closed\nhours ward 2 06:00 .. 22:00\nhours ward 2 day 6 00:00 .. 24:00\n"
EXAMPLE = "request 3 ward 2 week 0 day 6 23:45 .. week 1 day 0 02:00\n"

FORM = "a window as ward hours is written as in `ward 2 week 0 day 6 23:45 .. week 1 day 0 02:00`; got "
CALENDAR_FORM = "a calendar is written as in `calendar wards 3 weeks 2`; got "
HOURS_FORM = ("hours are written as in `hours 06:00 .. 22:00`, `hours ward 1 06:00 .. 22:00`, `hours day 6 closed` or `hours ward 1 day 6 closed`; "
              "got ")
NO_CALENDAR = "ward hours want a calendar at the beginning, right behind the settings, as in `calendar wards 3 weeks 2`; got "
BEGINNING = " lines stand at the beginning, right behind the settings; got "
NO_WARD = "there is no ward 7: with 3 wards they are 0 to 2; refused by 12"
NO_DAY = "there is no day 7: with 7 days they are 0 to 6; refused by 12"
TOO_LATE = "there is no 24:15: the times of a day are 00:00 to 24:00; refused by 12"
NO_QUARTER = "23:50 is no quarter hour: the minutes are 00, 15, 30 or 45"
BACKWARDS = "the window ends at or before its beginning; refused by 13"
TO_U64 = " must be a number from 0 to 18446744073709551615; got "


def opens_after(opening, closing):
    return f"a ward opens before it closes, on the same day, and {opening} is after {closing}; refused by 12"


CALENDARS = {
    "no wards": (SETTINGS + "calendar wards 0 weeks 2", "line 2: a calendar has 1 to 64 wards, not 0; refused by 12"),
    "65 wards": (SETTINGS + "# how many\ncalendar wards 65 weeks 1", "line 3: a calendar has 1 to 64 wards, not 65; refused by 12"),
    "no weeks": (SETTINGS + "calendar wards 1 weeks 0", "line 2: a calendar has 1 to 60 weeks, not 0; refused by 12"),
    "61 weeks and many wards": (SETTINGS + f"calendar wards {2 ** 64 - 1} weeks 61",
                                f"line 2: a calendar has 1 to 64 wards, not {2 ** 64 - 1}; refused by 12\n"
                                "line 2: a calendar has 1 to 60 weeks, not 61; refused by 12"),
    "wards past all numbers": (SETTINGS + f"calendar wards {2 ** 64} weeks x", f"line 2: wards{TO_U64}`{2 ** 64}`\nline 2: weeks{TO_U64}`x`"),
    "more than the tree has": ("tree 3 m 1 wait 9 patience 60 clients 4\n" + CALENDAR,
                               "line 2: wards * weeks * 672 is 3 * 2 * 672 = 4032, and a tree of 3 levels has 1024 units; refused by 12"),
    "a ward-week more than six levels have": ("tree 6 m 1 wait 9 patience 60 clients 4\ncalendar wards 49 weeks 2",
                                              "line 2: wards * weeks * 672 is 49 * 2 * 672 = 65856, and a tree of 6 levels has 65536 units; "
                                              "refused by 12"),
    "no tree, 1 level": ("tree 1 m 1 wait 9 patience 60 clients 4\n" + CALENDAR + EXAMPLE,
                         "line 2: a calendar wants a tree of 2 to 12 levels, not 1; refused by 1"),
    "no tree, 0 levels": ("tree 0 m 1 wait 9 patience 60 clients 4\n" + CALENDAR, "line 2: a calendar wants a tree of 2 to 12 levels, not 0; refused by 1"),
    "no tree, 65535 levels": ("tree 65535 m 1 wait 9 patience 60 clients 4\n" + CALENDAR + EXAMPLE,
                              "line 2: a calendar wants a tree of 2 to 12 levels, not 65535; refused by 1"),
    "figures in another order": (SETTINGS + "calendar weeks 2 wards 3", "line 2: " + CALENDAR_FORM + "`calendar weeks 2 wards 3`"),
    "a calendar without figures": (SETTINGS + "calendar\n" + EXAMPLE, "line 2: " + CALENDAR_FORM + "`calendar`"),
    "a calendar twice": (HEAD + CALENDAR + EXAMPLE, "line 3: a text has one calendar, and this is a second one; got `calendar wards 3 weeks 2`"),
    "a calendar after a call": (SETTINGS + "release 0\n" + CALENDAR, "line 3: `calendar`" + BEGINNING + "`calendar wards 3 weeks 2`"),
    "hours after a call": (HEAD + "release 0\nhours closed", "line 4: `hours`" + BEGINNING + "`hours closed`"),
    "a calendar before the settings": (CALENDAR + "stop", "line 1: the first line wants the settings, as in `tree 2 m 1 wait 5 patience 20 clients 2`; "
                                       "got `calendar wards 3 weeks 2`\nline 2: a call is one of request, step, release, cancel; got `stop`"),
}

HOURS = {
    "hours before the calendar": (SETTINGS + "hours closed\n" + CALENDAR + EXAMPLE,
                                  "line 2: hours want a calendar before them, as in `calendar wards 3 weeks 2`; got `hours closed`"),
    "hours without a calendar": (SETTINGS + "hours 06:00 .. 22:00\nrelease 0",
                                 "line 2: hours want a calendar before them, as in `calendar wards 3 weeks 2`; got `hours 06:00 .. 22:00`"),
    "hours without a time": (HEAD + "hours", "line 3: " + HOURS_FORM + "`hours`"),
    "hours without a closing": (HEAD + "hours ward 1 06:00 ..", "line 3: " + HOURS_FORM + "`hours ward 1 06:00 ..`"),
    "the day before the ward": (HEAD + "hours day 6 ward 1 closed", "line 3: " + HOURS_FORM + "`hours day 6 ward 1 closed`"),
    "hours of a week": (HEAD + "hours ward 1 week 1 closed", "line 3: " + HOURS_FORM + "`hours ward 1 week 1 closed`"),
    "closed and times": (HEAD + "hours closed 06:00 .. 22:00", "line 3: " + HOURS_FORM + "`hours closed 06:00 .. 22:00`"),
    "hours of an unknown ward": (HEAD + "hours ward 7 closed", "line 3: " + NO_WARD),
    "hours of the only ward but one": (SETTINGS + "calendar wards 1 weeks 2\nhours ward 1 closed", "line 3: there is no ward 1: with 1 ward it is 0; refused by 12"),
    "hours of an unknown day": (HEAD + "hours day 7 06:00 .. 22:00", "line 3: " + NO_DAY),
    "hours of ward x and day y": (HEAD + "hours ward x day y 06:00 .. z", f"line 3: ward{TO_U64}`x`\nline 3: day{TO_U64}`y`\n"
                                  "line 3: a time is written as in `06:15`; got `z`"),
    "an opening after its closing": (HEAD + "hours ward 1 22:00 .. 06:00", "line 3: " + opens_after("22:00", "06:00")),
    "an opening a quarter after its closing": (HEAD + "hours 6:15 .. 06:00", "line 3: " + opens_after("06:15", "06:00")),
    "an opening that is no quarter hour": (HEAD + "hours 23:50 .. 24:15", f"line 3: {NO_QUARTER}\nline 3: {TOO_LATE}"),
    "hours of 75 minutes": (HEAD + "hours 06:75 .. 22:00", "line 3: 06:75 is no quarter hour: the minutes are 00, 15, 30 or 45"),
    "two wrong lines of hours": (HEAD + "hours ward 7 closed\nhours closed\nhours day 7 closed\n" + EXAMPLE, f"line 3: {NO_WARD}\nline 5: {NO_DAY}"),
    "hours by a calendar that is wrong": (SETTINGS + "calendar wards 65 weeks 1\nhours ward 64 closed",
                                          "line 2: a calendar has 1 to 64 wards, not 65; refused by 12\n"
                                          "line 3: there is no ward 64: with 64 wards they are 0 to 63; refused by 12"),
}

WINDOWS = {
    "no calendar": (SETTINGS + EXAMPLE, "line 2: " + NO_CALENDAR + "`ward 2 week 0 day 6 23:45 .. week 1 day 0 02:00`"),
    "an unknown ward": (HEAD + "\nrequest 0 ward 7 week 0 day 0 08:00 .. 12:00", "line 4: " + NO_WARD),
    "everything unknown": (HEAD + "request 0 ward 7 week 2 day 7 24:15 .. week 9 day 8 99:00",
                           f"line 3: {NO_WARD}\nline 3: there is no week 2: with 2 weeks they are 0 to 1; refused by 12\nline 3: {NO_DAY}\n"
                           f"line 3: {TOO_LATE}\nline 3: there is no week 9: with 2 weeks they are 0 to 1; refused by 12\n"
                           "line 3: there is no day 8: with 7 days they are 0 to 6; refused by 12\n"
                           "line 3: there is no 99:00: the times of a day are 00:00 to 24:00; refused by 12"),
    "the midnight behind the last week": (HEAD + "request 0 ward 0 week 1 day 6 08:00 .. week 2 day 0 00:00",
                                          "line 3: there is no week 2: with 2 weeks they are 0 to 1; refused by 12"),
    "a ward of 2^64 - 1": (HEAD + f"request 0 ward {2 ** 64 - 1} week 0 day 0 08:00 .. 12:00",
                           f"line 3: there is no ward {2 ** 64 - 1}: with 3 wards they are 0 to 2; refused by 12"),
    "a week past all numbers": (HEAD + f"request 0 ward 0 week {'9' * 5000} day 0 08:00 .. 12:00", f"line 3: week{TO_U64}`{'9' * 80}` .."),
    "a client and a day that are no numbers": (HEAD + "request x ward 0 week 0 day Monday 08:00 .. 12:00",
                                               f"line 3: client must be a number from 0 to 65535; got `x`\nline 3: day{TO_U64}`Monday`"),
    "no client": (HEAD + "request ward 0 week 0 day 0 08:00 .. 12:00", "line 3: client must be a number from 0 to 65535; got `ward`\n"
                  "line 3: " + FORM + "`0 week 0 day 0 08:00 .. 12:00`"),
    "a time that is no quarter hour": (HEAD + "request 0 ward 0 week 0 day 0 23:50 .. 24:00", "line 3: " + NO_QUARTER),
    "a time in words": (HEAD + "request 0 ward 0 week 0 day 0 noon .. 8:0", "line 3: a time is written as in `06:15`; got `noon`\n"
                        "line 3: a time is written as in `06:15`; got `8:0`"),
    "digits of another script": (HEAD + "request 0 ward 0 week 0 day 0 0\u0668:00 .. 12:00", "line 3: a time is written as in `06:15`; got `0\u0668:00`"),
    "a beginning at 24:00": (HEAD + "request 0 ward 0 week 0 day 0 24:00 .. week 0 day 1 02:00",
                             "line 3: a window does not begin at 24:00, but at 00:00 of the next day; refused by 12"),
    "no end": (HEAD + "request 0 ward 0 week 0 day 0 08:00", "line 3: " + FORM + "`ward 0 week 0 day 0 08:00`"),
    "a day behind the dots and no week": (HEAD + "request 0 ward 0 week 0 day 0 08:00 .. day 1 12:00",
                                          "line 3: " + FORM + "`ward 0 week 0 day 0 08:00 .. day 1 12:00`"),
    "another ward behind the dots": (HEAD + "request 0 ward 0 week 0 day 0 08:00 .. ward 1 week 0 day 0 12:00",
                                     "line 3: " + FORM + "`ward 0 week 0 day 0 08:00 .. ward 1 week 0 day 0 12:00`"),
    "no blanks about the dots": (HEAD + "request 0 ward 0 week 0 day 0 08:00..12:00", "line 3: " + FORM + "`ward 0 week 0 day 0 08:00..12:00`"),
    "an end at its beginning": (HEAD + "request 0 ward 0 week 0 day 0 08:00 .. 08:00", "line 3: " + BACKWARDS),
    "an end the day before": (HEAD + "request 0 ward 1 week 1 day 3 08:00 .. week 1 day 2 24:00", "line 3: " + BACKWARDS),
    "an end at the first midnight of the first ward": (HEAD + "request 0 ward 0 week 0 day 0 00:00 .. 00:00", "line 3: " + BACKWARDS),
    "an end at the first midnight of another ward": (HEAD + "request 0 ward 1 week 0 day 0 00:00 .. week 0 day 0 00:00", "line 3: " + BACKWARDS),
    "closed before it opens": (OPEN + EXAMPLE, "line 7: ward 2 is closed on week 1 day 0 from 00:00 until 06:00; refused by 14"),
    "closed after it closes": (OPEN + "request 0 ward 1 week 0 day 5 21:45 .. 22:15",
                               "line 7: ward 1 is closed on week 0 day 5 from 22:00 until 24:00; refused by 14"),
    "closed all day": (OPEN + "request 0 ward 1 week 1 day 6 08:00 .. 08:15", "line 7: ward 1 is closed on week 1 day 6; refused by 14"),
    "closed at night, on the first of many days": (OPEN + "request 0 ward 1 week 0 day 0 06:00 .. week 1 day 6 24:00",
                                                   "line 7: ward 1 is closed on week 0 day 0 from 22:00 until 24:00; refused by 14"),
    "every kind of error": ("tree 4 m 1 wait 9 clients 4\n" + CALENDAR + "hours ward 7 closed\nhours closed\n" + EXAMPLE
                            + "request 0 ward 7 week 0 day 0 08:00 .. 12:00\nrequest 0 ward 0 week 0 day 0 08:00 .. 08:00\nstep 0\n",
                            "line 1: the first line lacks patience: it wants the settings, as in `tree 2 m 1 wait 5 patience 20 clients 2`; got "
                            f"`tree 4 m 1 wait 9 clients 4`\nline 3: {NO_WARD}\nline 6: {NO_WARD}\nline 7: {BACKWARDS}\n"
                            "line 8: step wants a client and a clock, as in `step 0 12`; got `step 0`"),
    "windows by a calendar that is wrong": (SETTINGS + "calendar wards 65 weeks 2\n" + EXAMPLE + "request 0 ward 7 week 0 day 7 08:00 .. 12:00",
                                            f"line 2: a calendar has 1 to 64 wards, not 65; refused by 12\nline 4: {NO_DAY}"),
}
TEXTS = CALENDARS | HOURS | WINDOWS

WISH = "run 7 wants ward 2 week 0 day 6 23:45 .. week 1 day 0 02:00 from 30 for 40\n"
WRITTEN = "a wish is written as in `run 7 wants 100 220 from 30 for 40`; got "
WISHES = {
    "no calendar": (WISH, "line 1: " + NO_CALENDAR + "`ward 2 week 0 day 6 23:45 .. week 1 day 0 02:00`"),
    "nothing behind the calendar": (HEAD + "hours closed\n", "line 4: " + WRITTEN + "nothing"),
    "a calendar behind a wish": (CALENDAR + WISH + CALENDAR, "line 3: `calendar`" + BEGINNING + "`calendar wards 3 weeks 2`"),
    "a calendar that no tree that is run has": ("calendar wards 49 weeks 2\n" + WISH,
                                                "line 1: wards * weeks * 672 is 49 * 2 * 672 = 65856, and a tree of 6 levels has 65536 units; refused by 12"),
    "a calendar that the named tree has not": ("tree 3 m 1 wait 9 patience 60 clients 8\n" + CALENDAR + WISH,
                                               "line 2: wards * weeks * 672 is 3 * 2 * 672 = 4032, and a tree of 3 levels has 1024 units; refused by 12"),
    "no tree": ("tree 1 m 1 wait 9 patience 60 clients 8\n" + CALENDAR + WISH, "line 2: a calendar wants a tree of 2 to 12 levels, not 1; refused by 1"),
    "settings that are wrong": ("tree 1 m 1 clients 8\ncalendar wards 64 weeks 60\n" + WISH, "line 1: the first line lacks wait and patience: it wants the "
                                "settings, as in `tree 2 m 1 wait 5 patience 20 clients 2`; got `tree 1 m 1 clients 8`"),
    "a window without an end": (CALENDAR + "run 7 wants ward 2 week 0 day 6 23:45 from 30 for 40", "line 2: " + FORM + "`ward 2 week 0 day 6 23:45`"),
    "a wish without a clock": (CALENDAR + "run 7 wants ward 2 week 0 day 6 23:45 .. 24:00 for 40",
                               "line 2: " + WRITTEN + "`run 7 wants ward 2 week 0 day 6 23:45 .. 24:00 for 40`"),
    "each part wrong": (CALENDAR + "run x wants ward 7 week 0 day 6 23:45 .. 24:00 from y for z",
                        f"line 2: run must be a number from 0 to 65535; got `x`\nline 2: {NO_WARD}\nline 2: clock{TO_U64}`y`\nline 2: ticks to hold{TO_U64}`z`"),
    "a closed day": (CALENDAR + "hours day 6 closed\n" + WISH, "line 3: ward 2 is closed on week 0 day 6; refused by 14"),
}
