[ B; spaces 5; ];


[ C; missing(); ];
