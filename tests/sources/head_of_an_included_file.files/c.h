!% -v8 -D
Message "c";
