// The predicates of covers, by their numbers from 0 on.
def list(this) { rule { this = 0; } rule { this -> node { data: _, next: n }; list(n); } }
def lenlist(this, int k) {
  rule { this = 0; k = 0; }
  rule { this -> node { data: _, next: n }; int m = k - 1; lenlist(n, m); }
}
def tree(this) { rule { this = 0; } rule { this -> t { l: x, r: y }; tree(x); tree(y); } }
def front(this) { rule { this -> node { data: _, next: n }; front(n); } rule { } }
def two(this) { rule { this -> t { l: x, r: y }; front(x); list(y); } }
