// The predicates of guesses, by their numbers from 0 on.
def length(this, int k) {
  rule { this = 0; k = 0; }
  rule { this -> node { data: d, next: n }; int m = k - 1; length(n, m); }
}
def back(this, ptr p) {
  rule { this = 0; }
  rule { this -> t { l: x, r: y }; x = p; back(y, this); }
}
def keep(this, int k) {
  rule { this = 0; }
  rule { this -> node { data: d, next: n }; d = k; keep(n, k); }
}
def only(this, ptr p, int k) { rule { this -> node { data: d, next: n }; d = k; only(n, this, d); } }
def either(this, ptr p) {
  rule { p = this; }
  rule { this -> t { l: x, r: y }; p = x; }
  rule { this -> node { data: d, next: n }; p = n; }
  rule { p = 0; }
}
def chain(this, int a, int b, int c) { rule { a = b + 1; b = c + 2; c = 3; } }
def other(this, int k) { rule { this -> node { data: d, next: n }; length(n, k); } }
def late(this, int k) { rule { this -> node { data: d, next: n }; ptr f = n; late(f, k); } }
