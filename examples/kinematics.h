* Two particles of mass m become two of mass M. The invariants s and t are free; u follows from them.
Symbols s,t,m,M;
#define mm "m^2"
#define MM "M^2"
