! Lines that are typed: reading, changing and cutting them into commands; again, oops and undo.

System_file;

Ifndef LIBRARY;
Message fatalerror "This is a part of the library. Include library in its place, by one line of the game.";
Endif;

! Reads a line into `answer`, and cuts it into words. False where there are none, or too many, which is told.
[ ReadLine  key;
    DrawStatus();
    answer->0 = LINE_LENGTH;
    answer->1 = 0;
    @aread answer 0 -> key;
    if (answer->1 > LINE_LENGTH) { Tell(LINE_TOO_LONG); rfalse; }
    TrimAnswer();
    if (answer->1 == 0) { Tell(LINE_EMPTY); rfalse; }
    return Cut(answer);
];

! Makes blanks of double quotes in the line that was read, and takes blanks and full stops from both its ends.
[ TrimAnswer  n;
    for (::) {
        n = answer + 2;
        @scan_table '"' n LINE_LENGTH $01 -> n ?~NoQuote;
        n->0 = ' ';
    }
    .NoQuote;
    n = 0;
    while (answer->1 && answer->(answer->1 + 1) == '.' or ' ') answer->1 = answer->1 - 1;
    while (n < answer->1 && answer->(n + 2) == '.' or ' ') n++;
    if (n == 0) return;
    answer->1 = answer->1 - n;
    CopyBytes(answer + 2 + n, answer + 2, answer->1);
];

! Cuts a text into words, up to its first full stop; `rest_at` is the place of what comes behind that, or 0. False where there are
! too many words, which is told.
[ Cut text  end at;
    end = text->1;
    rest_at = 0;
    at = text + 2;
    @scan_table '.' at end $01 -> at ?~NoStop;
    text->1 = at - text - 2;
    rest_at = text->1 + 3;
    .NoStop;
    words->0 = MOST_WORDS;
    @tokenise text words;
    at = text->1 + 2;
    text->1 = end;
    if (words->1 < MOST_WORDS || PlaceOf(MOST_WORDS) + LengthOf(MOST_WORDS) >= at) rtrue;
    Tell(LINE_TOO_LONG);
    next_command = 0;
    rfalse;
];

! The word of a number: its place in the dictionary, 0 where it is not there, END_OF_COMMAND behind the command.
[ WordOf n;
    if (n > command_end) return END_OF_COMMAND;
    return words-->(2 * n - 1);
];

! The next word of the command, which is passed.
[ NextWord;
    word_at++;
    return WordOf(word_at - 1);
];

! Where a word stands in its line, and how long it is.
[ PlaceOf n; return words->(4 * n + 1); ];
[ LengthOf n; return words->(4 * n); ];

! Prints a word as it was typed.
[ PrintWord n  at i;
    at = line + PlaceOf(n);
    for (i = 0 : i < LengthOf(n) : i++) print (char) at->i;
];

! Takes characters out of `line`.
[ RemoveText place count;
    line->1 = line->1 - count;
    CopyBytes(line + place + count, line + place, 2 + line->1 - place);
];

! Puts characters into `line`, as far as there is room for all of them.
[ InsertText place text count;
    if (line->1 + count > LINE_LENGTH) rfalse;
    CopyBytes(line + place, line + place + count, 2 + line->1 - place);
    CopyBytes(text, line + place, count);
    line->1 = line->1 + count;
    rtrue;
];

! Makes what was read the line whose commands are done.
[ TakeAnswer;
    CopyBytes(answer, line, LINE_LENGTH + 3);
    command_at = 1;
    next_command = 0;
    spoken_to = 0;
];

! A word that separates commands, as a full stop does: at the word of a number, in a line of which words->1 are there.
[ IsSeparator n  word;
    word = words-->(2 * n - 1);
    if (word == 'then') rtrue;
    if (word == 'and' && n < words->1) {
        word = words-->(2 * n + 1);
        return word && (word->6) & 129 == 1;
    }
    rfalse;
];

! Finds where the command ends that begins at `command_at`.
[ FindEnd;
    for (command_end = command_at : command_end <= words->1 : command_end++) if (IsSeparator(command_end)) break;
    next_command = 0;
    if (rest_at) next_command = THE_REST;
    if (command_end < words->1) next_command = command_end + 1;
    command_end--;
];

! Keeps the text of the present command for `again`.
[ KeepCommand  from count;
    from = PlaceOf(command_at);
    count = PlaceOf(command_end) + LengthOf(command_end) - from;
    saved->1 = count;
    CopyBytes(line + from, saved + 2, count);
];

[ CopyBytes from to_place count;
    @copy_table from to_place count;
];

! Sets `command_at` to the next command that is to be done, and reads a line where there is none. Does what `again`, `oops` and
! `undo` ask for.
[ NextCommand  word;
    for (::) {
        command_at = next_command;
        if (command_at <= 0) {
            if (command_at == THE_REST) {
                RemoveText(2, rest_at - 2);
                spoken_to = 0;
                command_at = 1;
                if (~~Cut(line)) continue;
            } else {
                print "^>";
                if (~~ReadCommands()) continue;
            }
        }
        FindEnd();
        if (command_end < command_at) {
            if (next_command == 0) Tell(LINE_EMPTY);
            continue;
        }
        word = WordOf(command_at);
        if ((word == 'again' or 'g//') && command_end == command_at) {
            if (~~Repeat()) continue;
        }
        return;
    }
];

! Puts the last command in the place of `again`.
[ Repeat  place;
    if (saved->1 == 0) { Tell(AGAIN_NOTHING); next_command = 0; rfalse; }
    place = PlaceOf(command_at);
    RemoveText(place, LengthOf(command_at));
    if (~~InsertText(place, saved + 2, saved->1)) { Tell(LINE_TOO_LONG); next_command = 0; rfalse; }
    if (~~Cut(line)) rfalse;
    FindEnd();
    rtrue;
];

! Reads a line of commands. Answers whether there is something to do in it.
[ ReadCommands;
    return ReadLine() && TakeLine();
];

! Makes the line that was read the one whose commands are done, unless it is `oops` or `undo`.
[ TakeLine  word result;
    word = words-->1;
    if (word == 'oops' or 'o//') return Correct();
    oops_place = 0;
    if (word == 'undo' && words->1 == 1) { Undo(); rfalse; }
    TakeAnswer();
    can_undo = 1;
    @save_undo -> result;
    if (result == 2) {
        Tell(UNDO_DONE);
        PrintHeading();
        next_command = 0;
        rfalse;
    }
    if (result ~= 1) can_undo = 0;
    rtrue;
];

[ Undo  result;
    if (can_undo == 0) { Tell(UNDO_NOTHING); return; }
    @restore_undo -> result;
    if (result ~= 2) Tell(UNDO_FAILED);
];

! Puts the word behind `oops` in the place of the one that was not known.
[ Correct  from count;
    if (oops_place == 0) { Tell(OOPS_NOTHING); rfalse; }
    if (words->1 == 1) { Tell(OOPS_WHAT); rfalse; }
    from = PlaceOf(2);
    count = LengthOf(2);
    RemoveText(oops_place, oops_length);
    if (~~InsertText(oops_place, answer + from, count)) { Tell(LINE_TOO_LONG); rfalse; }
    oops_place = 0;
    command_at = oops_command;
    return Cut(line);
];
