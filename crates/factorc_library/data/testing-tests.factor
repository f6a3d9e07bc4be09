! Tests of `lib/testing.factor`.

USING: kernel math tools.test ;
IN: testing-tests

{ } [ ] unit-test
{ 3 } [ 1 2 + ] unit-test
{ 1 2 } [ 1 2 ] unit-test
{ 1 2 3 } [ 1 2 3 ] unit-test
{ 1 2 3 4 } [ 1 2 3 4 ] unit-test
{ 1 2 3 4 5 } [ 1 2 3 4 5 ] unit-test
{ 1 2 3 4 5 6 } [ 1 2 3 4 5 6 ] unit-test
{ 1 2 3 4 5 6 7 } [ 1 2 3 4 5 6 7 ] unit-test
{ 1 2 3 4 5 6 7 8 } [ 1 2 3 4 5 6 7 8 ] unit-test
{ "a" f } [ f "a" swap ] unit-test
report-tests
{ 4 } [ 1 2 + ] unit-test
