
Message "hello";