% Runs the calls of bindings/python/test_yoyoash.py, line for line.
spawn anna
spawn ben
anna new('prices',['named_table'])
anna insert('prices',{'apple',[30,<<107,103>>]})
ben lookup('prices','apple')
ben insert('prices',{'pear',1})
ben new('x',[])
anna lookup('prices','Golden \'Delicious\'')
exit anna
anna lookup('prices','apple')
