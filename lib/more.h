! More words for the verbs of the library, for a game that has no verbs of these names itself. It takes them by a line behind the one
! that includes the library: `Include "more";`. Each costs 9 bytes of readable memory.

System_file;

Ifndef LIBRARY;
Message fatalerror "This file is included behind library.";
Endif;

Verb 'speak' = 'say';
Verb 'murder' = 'attack';
Verb 'punch' = 'attack';
Verb 'smash' = 'attack';
Verb 'wreck' = 'attack';
Verb 'scale' = 'climb';
Verb 'cover' = 'close';
Verb 'slice' = 'cut';
Verb 'check' = 'examine';
Verb 'describe' = 'examine';
Verb 'inspect' = 'examine';
Verb 'hop' = 'jump';
Verb 'skip' = 'jump';
Verb 'uncover' = 'open';
Verb 'peruse' = 'read';
Verb 'dust' = 'rub';
Verb 'scrub' = 'rub';
Verb 'shine' = 'rub';
Verb 'squash' = 'squeeze';
Verb 'crush' = 'squeeze';
Verb 'connect' = 'tie';
Verb 'fix' = 'tie';
Verb 'screw' = 'turn';
Verb 'unscrew' = 'turn';
Verb 'awake' = 'wake';
Verb 'shed' = 'doff';
