C A small order, as a shop would send it. 
(order
Aid 17
-\n  
(item
Asku A-1
-Pen
)item
-\n  
(item
Asku B-7
-Ink 
-&
- paper
)item
-\n  
(note
-Leave it 
(b
-at the door
)b
-, 
-“
-please
-”
-.
)note
-\n
)order
