-module(a).
-spec f(integer()) -> integer().
f(X) -> X.
