def lenlist(this, int k) {
  rule { this = 0; k = 0; }
  rule { this -> node { data: _, next: n }; int m = k - 1; k >= 1; lenlist(n, m); }
}
