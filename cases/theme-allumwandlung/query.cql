cql(variations) initial find move promote Q find move promote R find move promote B find move promote N
