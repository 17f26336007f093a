! What can be done to people, and what the player does alone.

System_file;

Ifndef LIBRARY;
Message fatalerror "This is a part of the library. Include library in its place, by one line of the game.";
Endif;

[ AskSub; Speak(noun, ##Ask, ASK_SILENT); ];
[ AskForSub; Speak(noun, ##AskFor, ASK_FOR_SILENT); ];
[ TellSub; Speak(noun, ##Tell, TELL_SILENT); ];
[ AnswerSub; Speak(second, ##Answer, ANSWER_SILENT); ];

[ Speak somebody what message_number;
    if (somebody == player) { Tell(TELL_SELF); return; }
    if (somebody == 0) { Tell(ANSWER_NOBODY); return; }
    if (RunLife(somebody, what)) return;
    Tell(message_number, somebody);
];

! Whether a word is one of the topic, as 'clock' is one of "about the old clock".
[ TopicHas word  i;
    for (i = 0 : i < topic_words : i++) if (WordOf(topic_from + i) == word) rtrue;
    rfalse;
];

[ GiveSub;
    if (~~GetsHold(noun)) return;
    if (second == actor) { Tell(TAKE_ALREADY, noun); return; }
    if (~~IsOff(noun)) return;
    if (RunLife(second, ##Give)) return;
    Tell(GIVE_REFUSED, second);
];

[ ShowSub;
    if (~~GetsHold(noun)) return;
    if (second == actor) { <Examine noun>; return; }
    if (RunLife(second, ##Show)) return;
    Tell(SHOW_REFUSED, second);
];

[ ThrowAtSub;
    if (~~GetsHold(noun)) return;
    if (~~IsOff(noun)) return;
    if (RunOther(second, ##ThrownAt, before)) return;
    if (second has animate && RunLife(second, ##ThrowAt)) return;
    Tell(THROW_REFUSED, second);
];

[ AttackSub;
    if (noun has animate && RunLife(noun, ##Attack)) return;
    Tell(ATTACK_REFUSED, noun);
];

[ KissSub;
    if (noun == actor) { Tell(NOTHING_DONE, noun); return; }
    if (RunLife(noun, ##Kiss)) return;
    Tell(KISS_REFUSED, noun);
];

[ WakeOtherSub;
    if (RunLife(noun, ##WakeOther)) return;
    Tell(WAKE_REFUSED, noun);
];

[ BuySub; Tell(BUY_REFUSED, noun); ];
[ JumpSub; if (~~RunAfter()) Tell(JUMP_DONE); ];
[ NoSub; Tell(YES_PLAIN); ];
[ PraySub; if (~~RunAfter()) Tell(PRAY_DONE); ];
[ SingSub; if (~~RunAfter()) Tell(SING_DONE); ];
[ SleepSub; if (~~RunAfter()) Tell(SLEEP_REFUSED); ];
[ SorrySub; Tell(SORRY_PLAIN); ];
[ SwimSub; Tell(SWIM_REFUSED); ];
[ ThinkSub; if (~~RunAfter()) Tell(THINK_DONE); ];
[ WaitSub; if (~~RunAfter()) Tell(WAIT_DONE); ];
[ WakeSub; Tell(WAKE_SELF); ];
[ WaveHandsSub; if (~~RunAfter()) Tell(WAVE_HANDS_DONE); ];
[ YesSub; Tell(YES_PLAIN); ];
