{anna_early;anna_late;ben_early;ben_late}.
:- anna_early, anna_late.
:- ben_early, ben_late.
early :- anna_early.
early :- ben_early.
late :- anna_late.
late :- ben_late.
:- not early.
:- not late.
#preference(wishes,subset){anna_late;ben_early}.
#optimize(wishes).
