def list(this) {
  rule { }
}

def sorted(this, int from, int to) {
  rule { }
}
