% what is shown of dinner.lp: the dishes alone
#show soup/0.
#show salad/0.
#show fish/0.
#show pasta/0.
#show cake/0.
