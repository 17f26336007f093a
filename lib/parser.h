! Commands: the actor, the verb, the lines of its grammar, and what is asked where something is missing or unclear.

System_file;

Ifndef LIBRARY;
Message fatalerror "This is a part of the library. Include library in its place, by one line of the game.";
Endif;

! What comes of trying a command.
Constant TRY_AGAIN = 2;
Constant TRY_NEXT = 3;

! Reads the next command, with what it takes to understand it, and sets the action. Answers whether there is one to do.
[ ParseCommand  result;
    for (::) {
        NextCommand();
        do {
            result = TryCommand();
            if (result == TRY_AGAIN) {
                if (Cut(line)) FindEnd();
                else result = 0;
            }
        } until (result ~= TRY_AGAIN);
        if (result == TRY_NEXT) continue;
        if (result == 0) next_command = 0;
        return result;
    }
];

! Tries the command that begins at `command_at`: 1 where an action is set, 0 where it failed, TRY_AGAIN where its line was
! completed, TRY_NEXT where another command was typed instead.
[ TryCommand;
    fault = 0;
    fault_at = 0;
    missing_line = 0;
    unclear_at = 0;
    chosen_thing = 0;
    line_action = 0;
    line_count = 0;
    is_meta = false;
    DropEnd();
    if (~~ReadActor()) { Report(); rfalse; }
    if (unclear_at) { actor = player; return AskWhich(); }
    if (ReadDirection()) return Finish();
    verb_word = WordOf(verb_at);
    word_at = verb_at;
    if (verb_word == 0 or END_OF_COMMAND || (verb_word->6) & 1 == 0) {
        if (actor ~= player) return Address();
        if (DirectionOf(verb_at)) { word_at++; Fail(PARSE_STUCK); }
        else Fail(PARSE_NO_VERB);
        Report();
        rfalse;
    }
    is_meta = (verb_word->6) & 2;
    if (FitVerb()) {
        if (unclear_at) return AskWhich();
        return Finish();
    }
    if (actor ~= player && missing_line == 0) return Address();
    if (missing_line && fault ~= PARSE_NOTHING or PARSE_FEW) return AskMissing();
    Report();
    rfalse;
];

! Leaves out a comma and `the` at the end of a command that begins with a verb.
[ DropEnd  word;
    word = WordOf(command_at);
    if (word == 0 || (word->6) & 1 == 0) return;
    while (command_end > command_at && WordOf(command_end) == 'the' or ',//') command_end--;
];

! Looks for a line of the verb that fits the command: first among those of which all prepositions stand in it.
[ FitVerb  pass n at;
    verb_lines = #grammar_table-->(255 - verb_word->7);
    for (pass = 0 : pass < 2 : pass++) {
        at = verb_lines + 1;
        for (n = verb_lines->0 : n > 0 : n--) {
            if (HasPrepositions(at) ~= pass && FitLine(at)) rtrue;
            for (at = at + 2 : at->0 ~= LAST_TOKEN : at = at + 3) ;
            at++;
        }
    }
    rfalse;
];

! Whether for each place of prepositions in a line one of them stands in the command.
[ HasPrepositions at  found i;
    for (at = at + 2 : at->0 ~= LAST_TOKEN : at = at + 3) {
        if ((at->0) & 15 ~= PREPOSITION_TOKEN) continue;
        if ((at->0) & 16 == 0) found = false;
        for (i = verb_at + 1 : i <= command_end : i++) if (WordOf(i) == (at + 1)-->0) found = true;
        if ((at->0) & 32 == 0 && ~~found) rfalse;
    }
    rtrue;
];

! Whether a line of grammar fits the command. Where it depends on the second noun what the first one means, it is read twice.
[ FitLine at  token;
    line_ahead = 0;
    for (token = at + 2 : token->0 ~= LAST_TOKEN : token = token + 3) {
        if (token->0 == 1 && (token + 1)-->0 == MULTIEXCEPT_KIND or MULTIINSIDE_KIND) {
            if (~~FitTokens(at)) rfalse;
            if (line_count > 1 && value_kinds->1 == 0) line_ahead = values-->1;
        }
    }
    unclear_at = 0;
    return FitTokens(at);
];

! Whether the tokens of a line fit the words behind the verb.
[ FitTokens at  token type;
    line_action = at-->0 & 1023;
    line_reverse = at-->0 & 1024;
    line_count = 0;
    line_multiple = -1;
    list_is_full = false;
    chosen_thing = 0;
    word_at = verb_at + 1;
    #Ifdef DEBUG;
    if (tracing & 2) TraceLine(at);
    #Endif;
    for (token = at + 2 : token->0 ~= LAST_TOKEN : token = token + 3) {
        type = (token->0) & 15;
        if (type == PREPOSITION_TOKEN) {
            if (~~ReadPreposition(token)) {
                if (word_at > command_end) return Miss(at, token);
                return Fail(PARSE_STUCK);
            }
            while ((token->0) & 32) token = token + 3;
            continue;
        }
        if (word_at > command_end && type ~= ROUTINE_TOKEN) return Miss(at, token);
        if (~~ReadToken(type, (token + 1)-->0, token + 3)) {
            #Ifdef DEBUG;
            if (tracing & 2) TraceFault();
            #Endif;
            rfalse;
        }
    }
    if (word_at <= command_end) return Fail(PARSE_STUCK);
    if (line_reverse) ReverseValues();
    rtrue;
];

! Remembers the first line of which the end is missing. (Those with prepositions are tried later, but where the verb stands alone
! the first one of the grammar is meant.)
[ Miss at token;
    if (missing_line == 0 || (verb_at == command_end && at < missing_line)) {
        missing_line = at;
        missing_token = token;
    }
    rfalse;
];

! Passes one of the prepositions that may stand here.
[ ReadPreposition token;
    for (::) {
        if (WordOf(word_at) == (token + 1)-->0) { word_at++; rtrue; }
        if ((token->0) & 32 == 0) rfalse;
        token = token + 3;
    }
];

[ AddValue value kind;
    if (line_count == 3) return;
    values-->line_count = value;
    value_kinds->line_count = kind;
    line_count++;
];

[ ReverseValues  value kind;
    if (line_count < 2) return;
    value = values-->0;
    kind = value_kinds->0;
    values-->0 = values-->1;
    value_kinds->0 = value_kinds->1;
    values-->1 = value;
    value_kinds->1 = kind;
    if (line_multiple >= 0) line_multiple = 1 - line_multiple;
];

! Reads what a token asks for; `behind` is the token behind it.
[ ReadToken type value behind  routine;
    switch (type) {
        1:
            switch (value) {
                NUMBER_KIND:
                    if (~~ReadNumber()) return Fail(PARSE_NO_NUMBER);
                    AddValue(parsed_number, NUMBER_VALUE);
                    rtrue;
                SPECIAL_KIND:
                    if (ReadNumber()) AddValue(parsed_number, NUMBER_VALUE);
                    else AddValue(NextWord(), WORD_VALUE);
                    rtrue;
                TOPIC_KIND: return ReadTopic(behind);
            }
            return ReadNoun(value);
        FILTER_TOKEN: return ReadNoun(FILTER_KIND, value);
        ATTRIBUTE_TOKEN: return ReadNoun(ATTRIBUTE_KIND, value);
        SCOPE_TOKEN:
            routine = RoutineOf(value);
            scope_stage = 1;
            type = SCOPE_KIND;
            if (routine()) type = MULTI_KIND;
            if (ReadNoun(type, 0, routine)) rtrue;
            return Fail(PARSE_SCOPE, routine);
    }
    return ReadByRoutine(RoutineOf(value));
];

! Has a game's routine read what stands at `word_at`.
[ ReadByRoutine routine  value from;
    from = word_at;
    value = routine();
    switch (value) {
        NOT_PARSED:
            word_at = from;
            return Fail(PARSE_STUCK);
        PARSED_AS_WORDS: rtrue;
        PARSED_AS_NUMBER: AddValue(parsed_number, NUMBER_VALUE);
        default: AddValue(value, 0);
    }
    rtrue;
];

! Reads what a noun token asks for: one thing, or a list where the token takes one. Of several that could be meant the one that is
! taken is remembered, to be told.
[ ReadNoun kind filter routine  i;
    if (~~ReadPhrases(kind, filter, routine)) rfalse;
    if (phrase_plural && kind >= MULTI_KIND && kind <= MULTIINSIDE_KIND) {
        for (i = 0 : i <= gathered-->0 : i++) multiple-->i = gathered-->i;
        line_multiple = line_count;
    }
    else {
        if (gathered-->0 > 1) return Fail(PARSE_MANY);
        if (is_choice) chosen_thing = gathered-->1;
    }
    AddValue(gathered-->1, 0);
    rtrue;
];

! Reads a number of digits, up to 32767, into `parsed_number`.
[ ReadNumber  i at n;
    if (word_at > command_end || LengthOf(word_at) > 5) rfalse;
    at = line + PlaceOf(word_at);
    for (i = 0 : i < LengthOf(word_at) : i++) {
        if (at->i < '0' || at->i > '9' || n > 3276) rfalse;
        n = 10 * n + at->i - '0';
        if (n < 0) rfalse;
    }
    parsed_number = n;
    word_at++;
    rtrue;
];

! Reads a topic: any words up to one of the prepositions behind it, or to the end.
[ ReadTopic behind  is_end;
    topic_from = word_at;
    is_end = (behind->0) & 15 ~= PREPOSITION_TOKEN;
    while (word_at <= command_end) {
        if (~~is_end && word_at > topic_from && ReadPreposition(behind)) { word_at--; break; }
        word_at++;
    }
    topic_words = word_at - topic_from;
    AddValue(WordOf(topic_from), WORD_VALUE);
    rtrue;
];

! Reads who is spoken to, in front of a comma or behind `ask` and `tell`. False where nobody of the name is there.
[ ReadActor  word comma;
    actor = player;
    verb_at = command_at;
    word = WordOf(command_at);
    if (word == 'ask' or 'tell') {
        word_at = command_at + 1;
        if (ReadPhrase(CREATURE_KIND) && NextWord() == 'to' && IsVerb(word_at)) return SpeakTo(word_at);
        return ForgetFault();
    }
    for (comma = command_at + 1 : comma <= command_end : comma++) if (WordOf(comma) == ',//') break;
    if (comma > command_end) {
        if (spoken_to) actor = spoken_to;
        rtrue;
    }
    if (IsVerb(command_at) && comma > command_at + 1) rtrue;
    word_at = command_at;
    if (ReadPhrase(CREATURE_KIND) && word_at == comma) return SpeakTo(comma + 1);
    if (IsVerb(command_at)) return ForgetFault();
    if (fault == 0) Fail(PARSE_STUCK);
    rfalse;
];

! Whether the word of a number is a verb.
[ IsVerb n;
    n = WordOf(n);
    return n ~= 0 or END_OF_COMMAND && (n->6) & 1;
];

! Has the command that begins at a word done by who was found.
[ SpeakTo word;
    actor = matches-->1;
    if (actor ~= player) spoken_to = actor;
    verb_at = word;
    rtrue;
];

! Forgets what was found out in vain. It is true.
[ ForgetFault;
    fault = 0;
    fault_at = 0;
    unclear_at = 0;
    rtrue;
];

! Whether the command is a direction alone. Then it is one to go there. Behind `and` comes the next command.
[ ReadDirection  direction;
    if (verb_at ~= command_end && (verb_at > command_end - 2 || WordOf(verb_at + 1) ~= 'and')) rfalse;
    direction = DirectionOf(verb_at);
    if (direction == 0) rfalse;
    if (verb_at < command_end) {
        next_command = verb_at + 2;
        command_end = verb_at;
    }
    line_action = ##Go;
    line_count = 0;
    line_multiple = -1;
    list_is_full = false;
    AddValue(direction, 0);
    rtrue;
];

! The direction that the word of a number means, if it is none of a verb.
[ DirectionOf n  direction;
    direction = WordOf(n);
    if (direction == 0 || (direction->6) & 1) rfalse;
    word_at = n;
    objectloop (direction in compass) if (WordsOf(direction)) return direction;
    rfalse;
];

! Makes of what somebody is told, and what is no command, an answer.
[ Address;
    line_action = ##Answer;
    line_count = 0;
    line_multiple = -1;
    topic_from = verb_at;
    topic_words = command_end - verb_at + 1;
    AddValue(0, WORD_VALUE);
    if (topic_words) values-->0 = WordOf(verb_at);
    AddValue(actor, 0);
    actor = player;
    return Finish();
];

! Sets the action to what was understood.
[ Finish;
    if (line_multiple >= 0 && multiple-->0 == 0) rfalse;
    action = line_action;
    noun = 0;
    second = 0;
    noun_is_value = 0;
    second_is_value = 0;
    if (line_count > 0) { noun = values-->0; noun_is_value = value_kinds->0; }
    if (line_count > 1) { second = values-->1; second_is_value = value_kinds->1; }
    KeepCommand();
    SetPronouns();
    if (chosen_thing) Tell(THING_CHOSEN, chosen_thing);
    rtrue;
];

! Sets what pronouns mean: who is spoken to, the second thing and then the first one.
[ SetPronouns;
    if (actor ~= player) Notice(actor);
    if (line_count > 1 && second_is_value == 0 && line_multiple ~= 1) Notice(second);
    if (line_multiple >= 0) { them_thing = -1; return; }
    if (line_count && noun_is_value == 0) Notice(noun);
];

! Makes a thing the one that `it`, `him`, `her` or `them` means.
[ Notice thing;
    if (thing < 5 || thing == player || parent(thing) == compass) return;
    if (thing has several) { them_thing = thing; return; }
    if (thing has female) { her_thing = thing; return; }
    if (thing has male) { him_thing = thing; return; }
    it_thing = thing;
    if (thing has animate) { him_thing = thing; her_thing = thing; }
];

! Tells why the command was not understood.
[ Report  word;
    if (fault == PARSE_SCOPE) {
        scope_stage = 3;
        if (indirect(fault_thing)) return;
    }
    if (fault_at <= command_end && fault == PARSE_STUCK or PARSE_NOT_SEEN or PARSE_NO_VERB or PARSE_NO_NUMBER) {
        for (word = fault_at : word <= command_end : word++) {
            if (WordOf(word) == 0 && (word == fault_at || fault == PARSE_NOT_SEEN)) {
                oops_place = PlaceOf(word);
                oops_length = LengthOf(word);
                oops_command = command_at;
                Tell(PARSE_UNKNOWN, word);
                return;
            }
            if (WordOf(word) && (WordOf(word)->6) & 128 == 0) break;
        }
    }
    Tell(fault, fault_thing);
];

! Prints the words of the command from its verb up to the one at which it failed.
[ PrintUnderstood  n;
    for (n = verb_at : n < fault_at : n++) {
        if (n > verb_at && WordOf(n) ~= ',//') print " ";
        PrintWord(n);
    }
];

! Prints the matches, with "or" before the last one.
[ PrintChoices  i;
    for (i = 1 : i <= matches-->0 : i++) {
        DefArt(matches-->i);
        if (i == matches-->0 - 1) print " or ";
        if (i < matches-->0 - 1) print ", ";
    }
];

! Leaves one of the matches that no words tell apart.
[ DropAlike  i j;
    for (i = matches-->0 : i > 1 : i--) {
        for (j = 1 : j < i : j++) if (AreAlike(matches-->i, matches-->j)) { RemoveFrom(matches, matches-->i); break; }
    }
];

! Asks which of several things is meant, and puts the answer before the words that were unclear.
[ AskWhich  place i word;
    word_at = unclear_at;
    line_count = unclear_count;
    match_words = 0;
    matches-->0 = 0;
    LookThroughScope(TO_MATCH, 0, unclear_routine);
    if (match_words == 0) { fault = PARSE_NOT_SEEN; fault_at = unclear_at; Report(); rfalse; }
    Narrow(unclear_kind, unclear_filter);
    DropAlike();
    place = PlaceOf(unclear_at);
    Tell(ASK_WHICH, matches-->1);
    i = ReadReply(true);
    if (i ~= 1) return i;
    for (i = 1 : i <= words->1 : i++) {
        word = words-->(2 * i - 1);
        if (word == 'the' or 'one' or 'a//' or 'an') continue;
        if (~~InsertText(place, answer + PlaceOf(i), LengthOf(i) + 1)) { Tell(LINE_TOO_LONG); rfalse; }
        place = place + LengthOf(i);
        line->place = ' ';
        place++;
    }
    return TRY_AGAIN;
];

! Asks for what a line misses, and puts the answer at the end of the command.
[ AskMissing  place count word;
    FitLine(missing_line);
    if (unclear_at) return AskWhich();
    place = PlaceOf(command_end) + LengthOf(command_end);
    Tell(ASK_MISSING, MissesSomebody());
    if ((missing_token->0) & 15 == PREPOSITION_TOKEN) {
        word = (missing_token + 1)-->0;
        @output_stream 3 answer;
        print " ", (address) word;
        @output_stream (-3);
        count = answer-->0;
        if (InsertText(place, answer + 2, count)) place = place + count;
    }
    count = ReadReply();
    if (count ~= 1) return count;
    count = answer->1;
    if (words-->1 == word && word && words->1 > 1) {
        word = PlaceOf(2);
        count = count + 2 - word;
    } else word = 2;
    answer->(word - 1) = ' ';
    if (~~InsertText(place, answer + word - 1, count + 1)) { Tell(LINE_TOO_LONG); rfalse; }
    return TRY_AGAIN;
];

! Prints what is asked for: the verb, with what is known of its line up to the token that is missing.
[ PrintMissing  token n is_missing;
    if (verb_word == 'x//') print "examine";
    else PrintWord(verb_at);
    for (token = missing_line + 2 : token->0 ~= LAST_TOKEN : token = token + 3) {
        if (token == missing_token) is_missing = true;
        if ((token->0) & 15 == PREPOSITION_TOKEN) {
            if ((token->0) & 16 == 0) print " ", (address) (token + 1)-->0;
            continue;
        }
        if (is_missing) return;
        ! a routine may have passed words without a value
        if (n >= line_count) continue;
        print " ";
        if (n == line_multiple) print "those things";
        else {
            if (value_kinds->n) print "that";
            else DefArt(values-->n);
        }
        n++;
    }
];

! Whether somebody is asked for, and not something.
[ MissesSomebody  token;
    token = missing_token;
    while ((token->0) & 15 == PREPOSITION_TOKEN) token = token + 3;
    return token->0 == 1 && (token + 1)-->0 == CREATURE_KIND;
];

! Reads a reply: 1 where it is one, 0 where it is empty, TRY_NEXT where it is a command of its own. Where it may be one of the
! matches, their names are none.
[ ReadReply is_match  word i;
    print "^>";
    if (~~ReadLine()) rfalse;
    word = words-->1;
    command_end = words->1;
    verb_at = 1;
    if (is_match) {
        word_at = 1;
        for (i = matches-->0 : i > 0 : i--) if (WordsOf(matches-->i)) return 1;
    }
    if (word == 'oops' or 'o//' or 'undo' or 'again' or 'g//') return NewLine();
    if (word && (word->6) & 1 && ((word->6) & 128 == 0 || (word->6) & 2 || words->1 > 1)) return NewLine();
    if (words->1 == 1 && ReadDirection()) return NewLine();
    return 1;
];

[ NewLine;
    if (~~TakeLine()) rfalse;
    next_command = command_at;
    return TRY_NEXT;
];
