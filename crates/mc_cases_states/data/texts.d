// The predicates that texts of states name, by their numbers from 0 on.
def list(this) { rule { this = 0; } }
def sorted(this, int k) { rule { this = 0; } }
