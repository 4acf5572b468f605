def list(this) {
  rule { this = 0; }
  rule { this -> node { data: d, next: n }; d >= 0; list(n); }
}

def len(this, int k) {
  rule { this = 0; k = 0; }
  rule { this -> node { data: d, next: n }; int m = k - 1; len(n, m); }
}

def tree(this) {
  rule { this = 0; }
  rule { this -> fork { left: l, right: r }; tree(l); tree(r); }
}

def spine(this) {
  rule { this = 0; }
  rule { this -> fork { left: l, right: r }; tree(l); spine(r); }
}

def back(this, ptr p) {
  rule { this = 0; }
  rule { this -> fork { left: l, right: r }; l = p; back(r, this); }
}

def up(this, ptr p) {
  rule { this = 0; }
  rule { this -> fork { left: l, right: r }; up(l, this); up(r, this); }
}

def pass(this, ptr q, ptr p, int k) {
  rule { this = 0; }
  rule { this -> node { data: d, next: n }; int m = k - 1; pass(n, q, this, m); }
}
