USING: math ;
1 2 + +
