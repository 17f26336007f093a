! Noun phrases: which things the words of a command mean.

System_file;

Ifndef LIBRARY;
Message fatalerror "This is a part of the library. Include library in its place, by one line of the game.";
Endif;

! Adds a thing to a list, unless it is there or the list is full.
[ AddTo list thing  i;
    for (i = list-->0 : i > 0 : i--) if (list-->i == thing) return;
    if (list-->0 == MOST_OBJECTS) { list_is_full = true; return; }
    i = list-->0 + 1;
    list-->0 = i;
    list-->i = thing;
];

[ RemoveFrom list thing  i;
    for (i = list-->0 : i > 0 : i--) {
        if (list-->i == thing) {
            list-->i = list-->(list-->0);
            list-->0 = list-->0 - 1;
        }
    }
];

! Remembers why a phrase or a line fails, if no other failure came further. It is false.
[ Fail message_number thing;
    if (word_at > fault_at || (word_at == fault_at && message_number > fault)) {
        fault = message_number;
        fault_at = word_at;
        fault_thing = thing;
    }
    rfalse;
];

! How many of the next words are names of a thing.
[ WordsOf thing  at length n word from;
    if (thing provides parse_name) {
        from = word_at;
        n = RunRoutine(thing, FirstValue(thing, parse_name));
        word_at = from;
        if (n >= 0) return n;
        n = 0;
    }
    @get_prop_addr thing name -> at;
    if (at == 0) rfalse;
    @get_prop_len at -> length;
    length = length / 2;
    for (:: n++) {
        word = WordOf(word_at + n);
        if (word == 0 or END_OF_COMMAND) return n;
        @scan_table word at length -> from ?~NoName;
    }
    .NoName;
    return n;
];

! Keeps a thing among the matches if it has as many of the words as these, or instead of them if it has more.
[ MatchThing thing  n;
    n = WordsOf(thing);
    if (n == 0 || n < match_words) return;
    if (n > match_words) { match_words = n; matches-->0 = 0; }
    AddTo(matches, thing);
];

! Whether a thing is what a token asks for.
[ Fits kind filter thing  old;
    switch (kind) {
        CREATURE_KIND: return thing has animate || thing has talkable;
        ATTRIBUTE_KIND: if (thing has filter) rtrue; rfalse;
        FILTER_KIND:
            old = noun;
            noun = thing;
            filter = RoutineOf(filter);
            filter = filter();
            noun = old;
            return filter;
    }
    rtrue;
];

! The routine of a token, of which the grammar has the number.
[ RoutineOf n; return #preactions_table-->n; ];

! Whether a thing is one that a verb is for.
[ Suits thing;
    if (line_count) {
        switch (line_action) {
            ##PutIn: return thing has container;
            ##PutOn: return thing has supporter;
        }
        rfalse;
    }
    switch (line_action) {
        ##Open, ##Close: return thing has openable;
        ##Lock, ##Unlock: return thing has lockable;
        ##SwitchOn, ##SwitchOff: return thing has switchable;
        ##Wear, ##Disrobe: return thing has clothing;
        ##Eat: return thing has edible;
        ##Enter, ##Exit: return thing has enterable || thing has door;
    }
    rfalse;
];

! How well a thing that has the right name is what a command means.
[ Worth kind thing  n;
    switch (kind) {
        HELD_KIND, MULTIHELD_KIND, MULTIEXCEPT_KIND: if (thing in actor) n = 8;
        MULTI_KIND: if (~~IsWithin(thing, actor)) n = 8;
        MULTIINSIDE_KIND: if (line_ahead && IsWithin(thing, line_ahead)) n = 8;
        default: if (line_action == ##Take && ~~IsWithin(thing, actor)) n = 8;
    }
    if (kind == MULTI_KIND && (thing has scenery || thing has static)) n = n - 4;
    if (Suits(thing)) n = n + 12;
    if (thing has concealed) n = n - 2;
    if (line_count && value_kinds->0 == 0 && values-->0 == thing) n = n - 4;
    if (game provides choose) n = n + 16 * Chosen(kind, thing);
    return n;
];

! What the game says of a thing that could be meant: the higher, the better.
[ Chosen kind thing  routine old;
    routine = FirstValue(game, choose);
    old = sw__var;
    sw__var = line_action;
    kind = routine(thing, line_action, kind);
    sw__var = old;
    return kind;
];

! Takes from the matches what a token does not ask for. False where none is left.
[ Sieve kind filter  i thing;
    for (i = matches-->0 : i > 0 : i--) {
        thing = matches-->i;
        if (~~Fits(kind, filter, thing)) RemoveFrom(matches, thing);
    }
    if (matches-->0) rtrue;
    if (kind == CREATURE_KIND) return Fail(PARSE_NOT_ALIVE);
    return Fail(PARSE_NOT_THAT);
];

! Takes from the matches what a token does not ask for, and then all that are worth less than others.
[ Narrow kind filter  i best n thing;
    if (~~Sieve(kind, filter)) rfalse;
    is_choice = matches-->0 > 1 && ~~AllAlike();
    if (matches-->0 == 1) rtrue;
    best = -32767;
    for (i = 1 : i <= matches-->0 : i++) {
        n = Worth(kind, matches-->i);
        if (n > best) best = n;
    }
    for (i = matches-->0 : i > 0 : i--) {
        thing = matches-->i;
        if (Worth(kind, thing) < best) RemoveFrom(matches, thing);
    }
    if (matches-->0 > 1) is_choice = false;
    if (best >= 8 && kind == HELD_KIND or MULTIHELD_KIND or MULTIEXCEPT_KIND or MULTIINSIDE_KIND) is_choice = false;
    rtrue;
];

! Whether two things have the same names, so that no words tell them apart.
[ AreAlike thing other  at names length n;
    if (FirstValue(thing, parse_name) ~= FirstValue(other, parse_name)) rfalse;
    if (thing provides parse_name && ~~HaveOneName(thing, other)) rfalse;
    at = thing.&name;
    names = other.&name;
    length = thing.#name;
    if (length ~= other.#name) rfalse;
    for (n = 0 : n < length / 2 : n++) if (at-->n ~= names-->n) rfalse;
    rtrue;
];

! Whether two things print the same text as their name.
[ HaveOneName thing other  at text;
    at = FirstValue(thing, printed_name);
    if (at ~= FirstValue(other, printed_name)) rfalse;
    if (at) return Z__Region(at) == 3;
    at = (0-->5 + 14 * thing + 124)-->0;
    text = (0-->5 + 14 * other + 124)-->0;
    if (at->0 ~= text->0) rfalse;
    for (other = 1 : other <= 2 * at->0 : other++) if (at->other ~= text->other) rfalse;
    rtrue;
];

! Whether all matches are alike.
[ AllAlike  i;
    for (i = 2 : i <= matches-->0 : i++) if (~~AreAlike(matches-->1, matches-->i)) rfalse;
    rtrue;
];

! Whether a thing is one of all that a token asks for.
[ IsOfAll thing;
    if (thing == actor || thing has scenery || thing has concealed) rfalse;
    switch (all_kind) {
        MULTIHELD_KIND, MULTIEXCEPT_KIND:
            return thing in actor && thing ~= line_ahead && (thing hasnt worn || line_action == ##Disrobe);
        MULTIINSIDE_KIND: return line_ahead == 0 || thing in line_ahead;
    }
    if (thing has static || thing has animate || thing has door || IsWithin(thing, actor) || IsWithin(actor, thing)) rfalse;
    thing = parent(thing);
    if (thing == 0 || thing has animate) rfalse;
    if (thing == location || thing == parent(actor)) rtrue;
    ! what is in something that can be taken comes with it
    if (thing hasnt static && thing hasnt scenery) rfalse;
    return thing hasnt container || thing has open;
];

! Reads the words `all`, `the` and the like in front of a phrase, and a number of things.
[ ReadArticles  word;
    for (:: word_at++) {
        word = WordOf(word_at);
        switch (word) {
            'all', 'every', 'everything', 'both': phrase_all = true;
            'the', 'a//', 'an', 'some', 'my': ;
            'of': if (~~(phrase_all || phrase_number)) return;
            'one':
                word_at++;
                if (IsPhraseOver()) { word_at--; return; }
                word_at--;
            0:
                if (phrase_number) return;
                phrase_number = ReadCount();
                if (phrase_number == 0) return;
                word_at--;
            default: return;
        }
    }
];

! Reads a number that the dictionary has not, in digits or as a word up to twenty; 0 where there is none.
[ ReadCount  n old;
    old = parsed_number;
    if (ReadNumber()) {
        n = parsed_number;
        parsed_number = old;
        return n;
    }
    if (line->PlaceOf(word_at) ~= 't' or 'f' or 's' or 'e' or 'n') rfalse;
    for (n = 2 : n < 21 : n++) {
        @output_stream 3 answer;
        EnglishNumber(n);
        @output_stream (-3);
        if (IsTyped(answer + 2, answer-->0)) { word_at++; return n; }
    }
    rfalse;
];

! Whether letters are those of the next word.
[ IsTyped letters count  at;
    if (count ~= LengthOf(word_at)) rfalse;
    at = line + PlaceOf(word_at);
    for (count-- : count >= 0 : count--) if (letters->count ~= at->count) rfalse;
    rtrue;
];

! Whether nothing more of a phrase stands at the next word.
[ IsPhraseOver  word;
    word = WordOf(word_at);
    if (word == END_OF_COMMAND or 'except' or 'but' or 'and' or ',//') rtrue;
    return word && (word->6) & 8;
];

! Whether a pronoun is one for somebody.
[ IsCalled thing pronoun;
    if (thing == player || thing hasnt animate) rfalse;
    if (pronoun == 'her') return thing has female;
    return thing has male || (thing has proper && thing hasnt female);
];

! Reads `it`, `him`, `her` or `them`, and answers whether one stands there. `matches` is then what it means, or empty. Of people it
! may be the only one in view of whom it is said.
[ ReadPronoun  thing i;
    matches-->0 = 0;
    i = WordOf(word_at);
    switch (i) {
        'it': thing = it_thing;
        'him': thing = him_thing;
        'her': thing = her_thing;
        'them': thing = them_thing;
        default: rfalse;
    }
    if (i == 'him' or 'her' && ~~(thing && IsInScope(thing))) {
        LookThroughScope(TO_MEET, i);
        if (matches-->0 == 1) thing = matches-->1;
        matches-->0 = 0;
    }
    if (thing == 0) { Fail(PARSE_PRONOUN); rtrue; }
    if (thing == -1) {
        phrase_plural = true;
        for (i = 1 : i <= multiple-->0 : i++) if (IsInScope(multiple-->i)) AddTo(matches, multiple-->i);
        if (matches-->0 == 0) Fail(PARSE_NOT_SEEN);
    } else {
        if (IsInScope(thing)) AddTo(matches, thing);
        else Fail(PARSE_GONE, thing);
    }
    if (matches-->0) word_at++;
    rtrue;
];

! Reads one phrase without `and`, and leaves in `matches` what it means: one thing, or several for `all` and for plurals.
[ ReadPhrase kind filter routine  from i;
    matches-->0 = 0;
    phrase_plural = false;
    phrase_all = false;
    phrase_number = 0;
    is_choice = false;
    ReadArticles();
    from = word_at;
    if (ReadPronoun()) {
        if (matches-->0 == 0) rfalse;
        return Narrow(kind, filter);
    }
    match_words = 0;
    LookThroughScope(TO_MATCH, 0, routine);
    if (kind == FILTER_KIND || (match_words == 0 && ~~phrase_all && kind == NOUN_KIND or ATTRIBUTE_KIND)) {
        objectloop (i in compass) MatchThing(i);
    }
    if (match_words == 0) {
        if (phrase_all && IsPhraseOver()) return CollectAll(kind, filter);
        return Fail(PARSE_NOT_SEEN);
    }
    for (i = match_words : i > 0 : i--) if ((NextWord()->6) & 4) phrase_plural = true;
    if (~~Narrow(kind, filter)) rfalse;
    if (phrase_number > 1) {
        if (matches-->0 < phrase_number) return Fail(PARSE_FEW, matches-->0);
        matches-->0 = phrase_number;
        phrase_plural = true;
    }
    if (phrase_all || phrase_plural) is_choice = false;
    else if (matches-->0 > 1) {
        if (unclear_at == 0 && ~~AllAlike()) {
            unclear_at = from;
            unclear_kind = kind;
            unclear_filter = filter;
            unclear_routine = routine;
            unclear_count = line_count;
        }
        matches-->0 = 1;
    }
    rtrue;
];

! All that a token asks for.
[ CollectAll kind filter;
    all_kind = kind;
    matches-->0 = 0;
    LookThroughScope(TO_COLLECT);
    if (matches-->0 == 0 && WordOf(word_at) ~= 'except' or 'but') return Fail(PARSE_NOTHING);
    return matches-->0 == 0 || Sieve(kind, filter);
];

! Reads phrases between `and` and commas, with what stands behind `except`, into `gathered`.
[ ReadPhrases kind filter routine  i word is_list;
    gathered-->0 = 0;
    for (::) {
        if (~~ReadPhrase(kind, filter, routine)) rfalse;
        if (phrase_all || phrase_plural || gathered-->0) is_list = true;
        for (i = 1 : i <= matches-->0 : i++) AddTo(gathered, matches-->i);
        word = WordOf(word_at);
        if (phrase_all && word == 'except' or 'but') {
            word_at++;
            if (~~ReadExceptions()) rfalse;
            word = WordOf(word_at);
        }
        if (word ~= 'and' or ',//' || word_at >= command_end) break;
        word_at++;
        if (WordOf(word_at) == 'and' && word_at < command_end) word_at++;
    }
    if (gathered-->0 == 0) return Fail(PARSE_NOTHING);
    phrase_plural = is_list;
    rtrue;
];

! Reads what is excepted, and takes it out of `gathered`.
[ ReadExceptions  i word;
    for (::) {
        if (WordOf(word_at) == END_OF_COMMAND) return Fail(PARSE_STUCK);
        if (~~ReadPhrase(NOUN_KIND)) rfalse;
        for (i = 1 : i <= matches-->0 : i++) RemoveFrom(gathered, matches-->i);
        word = WordOf(word_at);
        if (word ~= 'and' or ',//' || word_at >= command_end) rtrue;
        word_at++;
        if (WordOf(word_at) == 'and' && word_at < command_end) word_at++;
    }
];
