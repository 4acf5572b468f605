def list(this) {
  rule { this = 0; }
  rule { this -> node { data: _, next: n }; list(n); }
}
