* A right side without its end.
Symbols x;
Local G = (x + 1;
