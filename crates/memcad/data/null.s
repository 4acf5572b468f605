["input",1]
["malloc",0]
["input",5]
