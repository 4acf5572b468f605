def tree(this) {
  rule { this = 0; }
  rule { this -> tree { key: _, left: l, right: r }; tree(l); tree(r); }
}
