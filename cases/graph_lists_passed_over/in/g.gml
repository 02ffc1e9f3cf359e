node [ id 5 ] id 6 x [ graph [ node [ id 7 ] ] ]
graph [ id 8 x [ node [ id 9 ] ] node [ y [ id 2 ] id 1 label [ node [ id 3 ] ] ] x [ y [ id 4 ] ] ]
edge [ source 1 ] node [ id 10 ]
