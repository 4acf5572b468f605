// The predicates on heaps, by their numbers from 0 on.
def list(this) { rule { this = 0; } rule { this -> node { data: _, next: n }; list(n); } }
def lenlist(this, int k) {
  rule { this = 0; k = 0; }
  rule { this -> node { data: _, next: n }; int m = k - 1; lenlist(n, m); }
}
def tree(this) { rule { this = 0; } rule { this -> t { l: x, r: y }; tree(x); tree(y); } }
def lists(this) { rule { this = 0; } rule { this -> t { l: x, r: y }; list(x); lists(y); } }
def front(this) { rule { this -> node { data: _, next: n }; front(n); } rule { } }
def back(this) { rule { } rule { this -> node { data: _, next: n }; back(n); } }
def two(this) { rule { this -> t { l: x, r: y }; front(x); list(y); } }
def above(this, int k) { rule { this = 0; int m = k + 1; } }
def below(this, int k) { rule { this = 0; int m = k - 1; } }
def to(this, ptr e) {
  rule { this = e; }
  rule { this -> node { data: _, next: n }; this != e; to(n, e); }
}
def small(this) { rule { this -> node { data: d, next: n }; d <= 4; n = 0; } }
