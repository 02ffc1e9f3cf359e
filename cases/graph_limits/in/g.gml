graph [
node [ id 0 ]
{1}]
