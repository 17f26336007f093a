! Verbs about the game: ending, keeping, the score, the ways of telling, and the transcript.

System_file;

Ifndef LIBRARY;
Message fatalerror "This is a part of the library. Include library in its place, by one line of the game.";
Endif;

! Whether a question is answered with yes.
[ AgreesTo message_number;
    Tell(message_number);
    for (::) {
        print "> ";
        if (~~ReadLine()) continue;
        if (words-->1 == 'yes' or 'y//') rtrue;
        if (words-->1 == 'no' or 'n//') {
            ! the words are those of the commands again, of which more may stand in the line
            Cut(line);
            rfalse;
        }
        Tell(ASK_YES_NO);
    }
];

[ QuitSub; if (AgreesTo(QUIT_ASK)) quit; ];

[ RestartSub;
    if (~~AgreesTo(RESTART_ASK)) return;
    @restart;
];

[ SaveSub  result;
    @save -> result;
    if (result == 0) { Tell(SAVE_FAILED); return; }
    if (result == 2) { Tell(RESTORE_DONE); new_line; DescribePlace(true); return; }
    Tell(SAVE_DONE);
];

[ RestoreSub  result;
    @restore -> result;
    if (result == 0) Tell(RESTORE_FAILED);
];

[ VerifySub;
    @verify ?IsSound;
    Tell(VERIFY_BAD);
    return;
    .IsSound;
    Tell(VERIFY_DONE);
];

[ ScoreSub; Tell(SCORE_TOLD); ];

[ FullScoreSub;
    ScoreSub();
    Tell(FULL_SCORE_TOLD);
];

! Lists the rooms that the player was in.
[ PlacesSub  room;
    Tell(PLACES_LIST);
    objectloop (room has visited) print "  ", (name) room, "^";
];

! Lists the things that the player had in hand, and where they are.
[ ObjectsSub  thing;
    Tell(OBJECTS_LIST);
    objectloop (thing has moved) {
        print "  ", (the) thing, " (";
        Where(thing);
        print ")^";
    }
];

! Prints where a thing is.
[ Where thing;
    thing = parent(thing);
    if (thing == 0) { print "nowhere"; return; }
    if (thing == player) { print "in hand"; return; }
    if (parent(thing) == 0) { print (name) thing; return; }
    if (thing has animate) print "with ", (the) thing;
    else InOrOn(thing);
];

! Prints the thing that a pronoun means.
[ Meaning thing;
    if (thing) DefArt(thing);
    else print "nothing yet";
];

! Lists what the pronouns mean.
[ PronounsSub  i;
    Tell(PRONOUNS_LIST);
    print "  it: ", (Meaning) it_thing, "^  him: ", (Meaning) him_thing, "^  her: ", (Meaning) her_thing, "^  them: ";
    if (them_thing ~= -1) { Meaning(them_thing); new_line; return; }
    for (i = 1 : i <= multiple-->0 : i++) {
        if (i > 1) print ", ";
        DefArt(multiple-->i);
    }
    new_line;
];

[ VerboseSub; look_mode = 1; Tell(VERBOSE_DONE); ];
[ BriefSub; look_mode = 0; Tell(BRIEF_DONE); ];
[ SuperbriefSub; look_mode = 2; Tell(SUPERBRIEF_DONE); ];
[ NotifyOnSub; notifies = true; Tell(NOTIFY_ON_DONE); ];
[ NotifyOffSub; notifies = false; Tell(NOTIFY_OFF_DONE); ];
[ VersionSub;
    PrintBanner();
    print "Release ", (0-->1) & 1023, ", serial number ";
    PrintSerial();
    new_line;
];

! Whether a transcript is being written.
[ IsWriting; return (0-->8) & 1; ];

[ TranscriptOnSub;
    if (IsWriting()) { Tell(TRANSCRIPT_ON_ALREADY); return; }
    @output_stream 2;
    if (~~IsWriting()) { Tell(TRANSCRIPT_FAILED); return; }
    Tell(TRANSCRIPT_ON_DONE);
    PrintBanner();
];

[ TranscriptOffSub;
    if (~~IsWriting()) { Tell(TRANSCRIPT_OFF_ALREADY); return; }
    Tell(TRANSCRIPT_OFF_DONE);
    @output_stream (-2);
];
