// Made regions.zip beside it, by ImageJ 1.53t of Debian 12: xvfb-run imagej -b regions.ijm FOLDER/
out = getArgument();
newImage("stack", "8-bit black", 200, 150, 20);
function keep(slice, name) {
  Roi.setPosition(slice);
  if (name != "") Roi.setName(name);
  setSlice(slice);
  roiManager("add");
}
makePolygon(10, 20, 14, 20, 14, 26, 10, 26); keep(1, "polygon");
makeSelection("polygon", newArray(10.25, 14.25, 14.25, 10.25), newArray(20.5, 20.5, 26.5, 26.5)); keep(2, "fine polygon");
makeSelection("freehand", newArray(10.25, 14.25, 14.25, 10.25), newArray(20.5, 20.5, 26.5, 26.5)); keep(3, "freehand");
makeRectangle(10, 20, 4, 6); keep(4, "rectangle");
run("Specify...", "width=4.5 height=6.5 x=10.25 y=20.75 slice=5"); keep(5, "fine rectangle");
makeOval(10, 20, 20, 12); keep(6, "oval");
run("Specify...", "width=4.5 height=6.5 x=10.25 y=20.75 slice=7 oval"); keep(7, "fine oval");
makeEllipse(10, 26, 30, 26, 0.6); keep(8, "ellipse");
makeRotatedRectangle(10, 23, 14, 23, 6); keep(9, "turned");
makeRectangle(10, 20, 30, 30); setKeyDown("alt"); makeRectangle(20, 30, 10, 10); setKeyDown("none"); keep(10, "with a hole");
makeOval(50, 50, 40, 30); setKeyDown("shift"); makeOval(120, 50, 40, 30); setKeyDown("none"); keep(11, "two");
setSlice(12); setColor(255); fillRect(30, 40, 5, 7); doWand(32, 42); keep(12, "traced");
makeSelection("polyline", newArray(1, 5, 9), newArray(2, 7, 3)); keep(13, "line");
makePoint(5, 6); keep(14, "point");
setSlice(15); makeRectangle(10, 20, 4, 6); roiManager("add");
setSlice(16); makeRectangle(10, 20, 4, 6); roiManager("add");
setSlice(16); makeRectangle(30, 20, 4, 6); roiManager("add");
makeRectangle(10, 20, 4, 6); Roi.setGroup(3); keep(17, "in a group");
roiManager("save", out + "regions.zip");
newImage("hyper", "8-bit grayscale-mode", 50, 40, 2, 3, 2);
roiManager("reset");
Stack.setPosition(2, 3, 2); makeRectangle(10, 20, 4, 6); Roi.setPosition(2, 3, 2); Roi.setName("by position"); roiManager("add");
Stack.setPosition(1, 2, 2); makeRectangle(10, 20, 4, 6); roiManager("add");
roiManager("save", out + "hyperstack.zip");
