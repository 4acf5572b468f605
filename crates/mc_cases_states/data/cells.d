// The one predicate, of which a cell stands at a node with a number.
def cell(this, int k) { rule { this = 0; } }
