
[ A x; print nowhere, (number) x; ];
Constant 5;
