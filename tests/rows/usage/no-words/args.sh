: no words
