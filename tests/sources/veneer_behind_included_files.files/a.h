
[ A x; print nowhere; A2(); ];
Global g = later;
