{soup;salad}.
:- not soup, not salad.
:- soup, salad.
{fish;pasta}.
:- not fish, not pasta.
:- fish, pasta.
oven :- fish.
oven :- cake.
hob :- soup.
hob :- pasta.
{cake}.
full :- cake.
full :- pasta.
:- not full.
#preference(effort,subset){oven;hob;cake}.
#optimize(effort).
