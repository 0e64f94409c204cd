 	
 enum E{A,}